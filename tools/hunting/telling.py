"""What a hunt tells: on standard output, as lines for a baseline, and as pages."""
import collections, os, shlex

import page
from answers import with_schedule
from bugs import RUN
from children import Broken, Failed
from recording import FILES

MANY_BUGS = 20  # from one more on a question is told to be too wide

# What the recorder left out, by words of its line, and what is to be done.
ADVICE = [
    ('gave it back', 'what is found under this lock may be none: take and give it in one thread'),
    ('not recorded changed it', 'nothing is asked of this cell: build by gprecord what changes it too'),
    ('no room', 'make the run smaller, or take --record="--last N"'),
    ("behind the recording's end", 'make the run smaller'),
    ('accessed just as others', 'these are asked of some cells for all; --record="--alike N" keeps more'),
    ('in pauses', 'the program asked for it by gp_record'),
    ('pthread_create did not start', 'what these threads do is not asked'),
    ('ends the region', 'begin and end regions like brackets'),
]


class Telling:
    """All that a hunt knows, for people."""

    def __init__(self, hunt):
        self.hunt = hunt

    def told_bugs(self):
        """All bugs with their numbers: the new ones first, those that are confirmed before the others."""
        order = sorted(self.hunt.bugs.values(), key=lambda bug: (bug.known, not bug.is_confirmed, bug.line))
        return list(enumerate(order, 1))

    def look_up(self, number, bug):
        """The places of a bug with their lines, and which file has its story."""
        if bug.property == RUN:
            bug.story = 'seed%d.log' % bug.seeds[0]
            return
        bug.story = 'bug%d.html' % number
        seed, finding = bug.shown = bug.shown or bug.findings[0][:2]
        order = next(order for at, found, order in bug.findings if (at, found) == bug.shown)
        recording = self.hunt.runs[seed].recording
        for name in [finding.events[at] for at in order]:
            place, event = recording.place(finding.window, name), recording.event(finding.window, name)
            bug.told.append(page.told_place(self.hunt.given.source, place, event))

    def write_story(self, bug):
        """The page of gpshow; of a deadlock, where gpshow has none, and where the hunt is broken off, one of hunt's own."""
        seed, finding = bug.shown
        run = self.hunt.runs[seed]
        try:
            text = self.shown_by_gpshow(run, finding)
        except Broken:
            text = None
        except Failed as fault:
            text, self.hunt.failure = None, str(fault)
        if text is None:
            title = '%s, window %d, seed %d' % (finding.property, finding.window, seed)
            end = list(waits_of(run.recording, finding, self.hunt.given.source)) if finding.property not in self.hunt.properties else []
            text = page.story(title, run.recording, finding, self.hunt.given.source, [*end, *filter(None, [bug.verdict])])
        with open(self.hunt.folder(bug.story), 'w', encoding='utf-8') as file:
            file.write(text)

    def shown_by_gpshow(self, run, finding):
        if finding.property not in self.hunt.properties or not self.has_report(run, finding):
            return None
        words = ['--as=html', '--source=' + self.hunt.given.source, '--window=%d' % finding.window, '--property=' + finding.property,
                 '--instance=%d' % finding.number]
        status, text = self.hunt.children.run([self.hunt.gpshow, *words, run.folder], self.hunt.given.seconds)
        return text if status == 0 else None

    def has_report(self, run, finding):
        """Sees to a report that gpshow reads: of a recording with conditions it has the schedule of task notify among analyse's answers."""
        path = os.path.join(run.folder, FILES['analyse'])
        if os.path.exists(os.path.join(run.folder, FILES['notify'])):
            run.analysed = run.analysed or self.hunt.answer(run, 'analyse')
            if run.analysed is None:
                return False
            with open(path, 'w') as file:
                file.write(with_schedule(run.analysed, finding))
        return os.path.exists(path)

    def more_notes(self):
        """Behind the bugs: what is harmless, what was not asked, and what was left out, each with what to do."""
        for (name, why), count in sorted(self.hunt.harmless.items()):
            yield 'dropped as harmless: %s, %d findings, by `%s`' % (name, count, why)
        unasked = self.hunt.unasked()
        for name, missing in unasked.items():
            if missing:
                yield 'not asked: %s has no instance in any recording: %s' % (name, ', '.join(missing))
        if names := [name for name, missing in unasked.items() if not missing]:
            yield 'not asked: %s: there are such events, but in no window as the pattern asks' % ', '.join(names)
        bugs = collections.Counter(bug.property for bug in self.hunt.bugs.values())
        for name in [name for name, count in bugs.items() if count > MANY_BUGS]:
            yield '%s finds %d bugs, so it is too wide a question: name a cell in place of $x, or say what is harmless' % (name, bugs[name])
        for text, seeds in self.hunt.notes.values():
            yield '%s (%s)' % (text, told_seeds(seeds))
        for text, seeds in self.hunt.left_out.values():
            what = next((advice for words, advice in ADVICE if words in text), 'an answer may miss it')
            yield 'left out: %s (%s): %s' % (text, told_seeds(seeds), what)
        for line in self.hunt.given.known.not_among(self.hunt.bugs.values()):
            yield 'known, and not found: %s' % line

    def tell(self):
        """Prints all that is known, and writes it into the folder."""
        recordings = sum(run.recording is not None for run in self.hunt.runs.values())
        self.hunt.merge_stops()
        numbered, notes = self.told_bugs(), list(self.more_notes())
        for number, bug in numbered:
            self.look_up(number, bug)
        new = [bug for _, bug in numbered if not bug.known]
        broken = 'broken off by signal %d: ' % self.hunt.children.signal if self.hunt.children.signal else ''
        title = '%s%d of %d runs recorded; bugs: %d, %d of them confirmed; %d known ones' % (
            broken, recordings, self.hunt.given.seeds, len(new), sum(bug.is_confirmed for bug in new), len(numbered) - len(new))
        print('hunt: ' + title)
        for number, bug in numbered:
            if not bug.known:
                self.print_bug(number, bug, recordings)
        for note in notes:
            print('hunt: ' + note)
        with open(self.hunt.folder('bugs'), 'w', encoding='utf-8') as file:
            file.writelines('# %s, in %d of %d recordings; %s\n%s\n' % (
                ' | '.join(bug.told) or 'a run', len(bug.seeds), recordings, bug.verdict or 'not tried', bug.line) for bug in new)
        with open(self.hunt.folder('index.html'), 'w', encoding='utf-8') as file:
            file.write(page.index(shlex.join(self.hunt.given.command), title, numbered, recordings, notes))
        files = self.hunt.folder('index.html'), self.hunt.folder('bugs')
        print('hunt: %s has all, %s the lines of these bugs for a baseline' % files, flush=True)
        for number, bug in numbered:
            if bug.property != RUN:
                self.write_story(bug)

    def print_bug(self, number, bug, recordings):
        if bug.property == RUN:
            print('bug %d: a run, %s in %d of %d runs: %s' % (
                number, ' '.join(bug.roles), len(bug.seeds), len(self.hunt.runs), bug.verdict))
        else:
            print('bug %d: %s, found %d times in %d of %d recordings, %s' % (
                number, bug.property, bug.counts.total(), len(bug.seeds), recordings, bug.verdict or 'not tried'))
        if bug.stops:
            print('    runs that came to a stop in it: %s' % told_seeds(sorted(bug.stops)))
        for name, told in zip(bug.names, bug.told):
            print('    %s: %s' % (name, told))
        print('    seed %d, %s' % (bug.shown[0] if bug.shown else bug.seeds[0], self.hunt.folder(bug.story)))


def waits_of(recording, finding, source):
    """Of a deadlock: where each thread waits, and for whom."""
    for name, holder in zip(finding.events, [*finding.events[1:], finding.events[0]]):
        event, place = recording.event(finding.window, name), recording.place(finding.window, name)
        yield 'thread %s waits at %s for the lock %s, which thread %s holds: %s' % (
            name.split('.')[0], name, event[1], holder.split('.')[0], page.told_place(source, place, event))


def told_seeds(seeds):
    return 'seed %d' % seeds[0] if len(seeds) == 1 else '%d seeds, %d the first' % (len(seeds), min(seeds))
