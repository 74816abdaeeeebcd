"""What tools/real reads of a recording and of the reports of it."""
import collections, os, re

LINE = re.compile(r'^(window|property|instance|found|impossible|undecided|toolarge) ?(.*)$', re.MULTILINE)


class Recording:
    """A folder that the recorder wrote: how much there is, and the lines of its events."""

    def __init__(self, folder):
        self.bytes, self.threads, self.segments = 0, 0, {}
        for name in os.listdir(folder):
            if name == 'manifest' or name.endswith('.trace'):
                self.bytes += os.path.getsize(os.path.join(folder, name))
        while os.path.exists(path := os.path.join(folder, 't%d.trace' % (self.threads + 1))):
            self.threads += 1
            with open(path, encoding='ascii') as file:
                self.segments[self.threads] = cut(file.read().splitlines())
        self.windows = max(map(len, self.segments.values()))
        self.events = sum(len(segment) for segments in self.segments.values() for segment in segments)

    def event(self, window, name):
        """The line of the event T.X of a window."""
        thread, index = map(int, name.split('.'))
        return self.segments[thread][window - 1][index]


def cut(lines):
    """The segments of a trace, one for each window."""
    segments = [[]]
    for line in lines:
        if line == 'mark':
            segments.append([])
        else:
            segments[-1].append(line)
    return segments


class Report:
    """What a report answers: how often by property, and the events of each found instance."""

    def __init__(self, text):
        self.counts, self.found, self.windows_left_out = collections.defaultdict(collections.Counter), [], 0
        window = name = events = None
        for kind, rest in LINE.findall(text):
            words = rest.split()
            if kind == 'window':
                window = int(words[0])
            elif kind == 'property':
                name = words[0]
                self.counts[name]['toomany'] += words[1:] == ['toomany']
            elif kind == 'instance':
                events = words[1:]
            elif kind == 'toolarge':
                self.windows_left_out += 1
            else:
                self.counts[name][kind] += 1
                if kind == 'found':
                    self.found.append((name, window, events))

    def sums(self, beginning):
        """The counts of all properties whose names begin so."""
        sums = collections.Counter()
        for name, counts in self.counts.items():
            if re.match(beginning, name):
                sums.update(counts)
        return sums

    def told(self, beginning):
        """How many instances of these properties are found, impossible and undecided, and how many windows say nothing of one."""
        sums = self.sums(beginning)
        left_out = self.windows_left_out + sums['toomany']
        told = '%d/%d/%d' % (sums['found'], sums['impossible'], sums['undecided'])
        return told + (' (%d left out)' % left_out if left_out else '')


def found_on(recording, report):
    """The cells, locks and lines of what is found, by property, each with how often."""
    found = collections.defaultdict(collections.Counter)
    for name, window, events in report.found:
        lines = [recording.event(window, event) for event in events]
        found[name][' | '.join(sorted(set(lines)) if name == 'deadlock' else [object_of(lines[0])])] += 1
    return found


def object_of(line):
    """The cell or lock that an event is on."""
    words = line.split()
    return words[2] if words[0] == 'op' else words[1]


def table_of(rows):
    """Rows of words in columns."""
    widths = [max(map(len, column)) for column in zip(*rows)]
    return '\n'.join('  '.join(word.ljust(width) for word, width in zip(row, widths)).rstrip() for row in rows)
