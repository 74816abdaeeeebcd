"""What hunt reads of the reports of gpredict's tasks analyse, notify and stuck."""
import collections
from typing import NamedTuple


class Finding(NamedTuple):
    """An instance that is found, with the events of its pattern, each as T.X, and the lines of its schedule."""
    window: int
    property: str
    number: int
    events: tuple
    lines: tuple

    @property
    def schedule(self):
        """The events of the schedule, in order."""
        return [name for line in self.lines for name in line.split(' ')]


class Report:
    """What is found, and how often each property is found, impossible, undecided, and in how many windows it has too many instances."""

    def __init__(self, text):
        self.found, self.counts = [], collections.defaultdict(collections.Counter)
        self.too_large, self.unpaired = 0, 0
        lines = iter(text.splitlines())
        for line in lines:
            kind, *words = line.split(' ')
            if kind == 'window':
                window = int(words[0])
            elif kind == 'property':
                name = words[0]
                self.counts[name]['toomany'] += words[1] == 'toomany'
            elif kind == 'instance':
                number, events = int(words[0]), tuple(words[1:])
            elif kind == 'toolarge':
                self.too_large += 1
            elif kind == 'unpaired':
                self.unpaired += 1
            elif kind in ('found', 'impossible', 'undecided'):
                self.counts[name][kind] += 1
                if kind == 'found':
                    rows = (int(words[0]) + 99) // 100  # a list has 100 words a line
                    self.found.append(Finding(window, name, number, events, tuple(next(lines) for _ in range(rows))))


def with_schedule(text, finding):
    """The text of a report in format 1 in which an instance is answered by the schedule of a finding of it."""
    made, place, at_instance = [], {}, False
    for line in text.splitlines():
        kind, *words = line.split(' ')
        if kind in ('window', 'property', 'instance', 'summary'):
            place[kind] = words[0]
            at_instance = False
        if not at_instance:
            made.append(line)
        elif kind in ('found', 'impossible', 'undecided'):
            was = kind
        wanted = (str(finding.window), finding.property, str(finding.number))
        if kind == 'instance' and (place['window'], place['property'], words[0]) == wanted:
            at_instance = True
            made += ['found %d' % len(finding.schedule), *finding.lines]
    counts = dict(zip(('found', 'impossible', 'undecided'), map(int, made.pop().split(' ')[1:])))
    counts[was] -= 1
    counts['found'] += 1
    return '\n'.join([*made, 'summary %(found)d %(impossible)d %(undecided)d' % counts, ''])
