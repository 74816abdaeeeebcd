"""What hunt takes for one bug, and the lines in which bugs are kept:

    bug race_read_write flag.c:27:main flag.c:18:publisher

A property, and for each event of its pattern the file, the line and the function where it is; of an event whose place is not known the
words of its event without a value, as read.ready. Lines that begin with # are for people. In a baseline a line number may be *.
"""
import collections, re

from questions import Fault

DEADLOCK, RUN, KEPT = 'deadlock', 'run', 4


def role_of(recording, window, name):
    """The word for what an event is in a bug."""
    place, words = recording.place(window, name), recording.event(window, name)
    if place:
        return ':'.join(place)
    return '.'.join(words[:-1] if words[0] in ('read', 'write') else words)


def turns_of(property_, count):
    """The orders of its events in which a finding says the same: of a deadlock each rotation."""
    if property_:
        return list(property_.turns())
    return [tuple(range(first, count)) + tuple(range(first)) for first in range(count)]


def least_turn(words, turns):
    """The order in which the words come first, numbers by what they are worth."""
    parts = [[int(part) if part.isdigit() else part for part in re.split(r'(\d+)', word)] for word in words]
    return min(turns, key=lambda order: [parts[at] for at in order])


class Bug:
    """Findings of a property whose events have the same places in the same roles; or runs that ended badly in the same way."""

    def __init__(self, property_, roles, names):
        self.property, self.roles, self.names = property_, roles, names
        self.counts, self.findings = collections.Counter(), []
        self.verdict, self.known, self.story, self.told, self.shown, self.stops = '', False, '', [], None, []

    def add(self, seed, finding, order):
        """A finding in the recording of a seed, whose events in this order are those of the roles; some of a seed are kept."""
        self.counts[seed] += 1
        if self.counts[seed] <= KEPT:
            self.findings.append((seed, finding, order))

    @property
    def seeds(self):
        return sorted(self.counts)

    def stops_as(self, run, locks_of):
        """Whether a run that came to a stop shows this deadlock: its threads wait for the locks of a finding."""
        locks = {role for role in run.roles if role.startswith('lock.')}
        return self.property == DEADLOCK and any(locks_of(seed, finding) == locks for seed, finding, _ in self.findings)

    @property
    def is_confirmed(self):
        return self.verdict.startswith('confirmed')

    @property
    def line(self):
        return ' '.join(['bug', self.property, *self.roles])


def bug_of_finding(property_, recording, finding):
    """What a finding is one of: the bug it would be alone, and the order of its events in that."""
    words = [role_of(recording, finding.window, name) for name in finding.events]
    order = least_turn(words, turns_of(property_, len(words)))
    names = [atom.event for atom in property_.atoms] if property_ else ['waits'] * len(words)
    return Bug(finding.property, tuple(words[at] for at in order), names), order


class Baseline:
    """The bugs that are known, by the lines of a file."""

    def __init__(self, text):
        self.lines = {}
        for number, line in enumerate(text.splitlines(), 1):
            words = line.split()
            if not words or words[0].startswith('#'):
                continue
            if words[0] != 'bug' or len(words) < 3:
                raise Fault('line %d: neither a comment nor `bug PROPERTY ROLE ..`' % number)
            self.lines[' '.join(words)] = re.compile(re.escape(' '.join(words)).replace(r':\*:', r':\d+:'))

    def knows(self, bug):
        return any(pattern.fullmatch(bug.line) for pattern in self.lines.values())

    def not_among(self, bugs):
        """The lines of the file that are none of these bugs."""
        return [line for line, pattern in self.lines.items() if not any(pattern.fullmatch(bug.line) for bug in bugs)]
