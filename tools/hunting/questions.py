"""What hunt reads of a file of properties: the patterns, and in comments what makes a finding of one harmless.

    # harmless: CONDITION
    # harmless: CONDITION and not CONDITION

Such a line stands behind the `property` line that it is for. A condition is one of

    equal A B           the events A and B of the pattern have the same value
    between A B SHAPE   the thread of A and B does an event of this shape between the two; a parameter is the name that it is in the finding

A finding is harmless by a line where each of its conditions holds, and one that begins with `not` does not; several lines are as many
reasons.
"""
import itertools, re
from typing import NamedTuple

HARMLESS = re.compile(r'\s*#\s*harmless:(.*)')
LENGTHS = {'read': 3, 'write': 3, 'acquire': 2, 'release': 2, 'start': 2, 'join': 2, 'begin': 2, 'end': 2}


class Fault(Exception):
    """A file that hunt was given breaks a rule of its form."""


class Atom(NamedTuple):
    """One event of a pattern: its name, its thread variable, its marks of regions, and its step, which a group shares."""
    event: str
    thread: str
    marks: str
    step: int


class Condition(NamedTuple):
    """`equal` or `between`, whether it is to hold, the places of A and B in the pattern, and the words of the shape."""
    kind: str
    wanted: bool
    first: int
    last: int
    shape: tuple


def matched(shape, event, names):
    """The names of all parameters where an event is of a shape, given those that are known; None where it is of another one."""
    if len(shape) != len(event) or shape[0] != event[0] or (shape[0] == 'op' and shape[1] != event[1]):
        return None
    names = dict(names)
    for term, word in zip(shape[1:], event[1:]):
        same = term == '*' or (names.setdefault(term, word) if term.startswith('$') else term) == word
        if not same:
            return None
    return names


class Property:
    """A property of the file: the shapes of its events, the atoms of its pattern, and what makes a finding harmless."""

    def __init__(self, name):
        self.name, self.shapes, self.atoms, self.harmless = name, {}, [], {}

    def read_pattern(self, words):
        step = 0
        for word, after in zip(words, [*words[1:], '']):
            if word == '||':
                continue
            event, thread, marks = re.fullmatch(r'(\w+)@(\w+)(.*)', word).groups()
            self.atoms.append(Atom(event, thread, marks, step))
            step += after != '||'

    def place_of(self, name):
        """The place of an event in the pattern."""
        places = [at for at, atom in enumerate(self.atoms) if atom.event == name]
        if len(places) != 1:
            raise Fault('%s has %s events %s' % (self.name, len(places) or 'no', name))
        return places[0]

    def condition(self, words):
        wanted = words[:1] != ['not']
        kind, *names = words if wanted else words[1:]
        if kind not in ('equal', 'between') or len(names) < 2:
            raise Fault('a condition is `equal A B` or `between A B SHAPE`')
        first, last = (self.place_of(name) for name in names[:2])
        shape = tuple(names[2:])
        if kind == 'equal' and (shape or not {self.kind(first), self.kind(last)} <= {'read', 'write'}):
            raise Fault('`equal` takes two events that read or write')
        if kind == 'between' and self.atoms[first].thread != self.atoms[last].thread:
            raise Fault('`between` takes two events of one thread')
        if kind == 'between' and not (shape and (shape[0] == 'op' and len(shape) > 1 or LENGTHS.get(shape[0]) == len(shape))):
            raise Fault('`between` takes the shape of an event')
        return Condition(kind, wanted, first, last, shape)

    def kind(self, at):
        return self.shapes[self.atoms[at].event][0]

    def turns(self):
        """The orders of the atoms that leave the pattern as it is, but for the names of its events and threads: a group of two writes can
        be turned. An order is a list of places."""
        for order in itertools.permutations(range(len(self.atoms))):
            pairs = [(self.atoms[at], self.atoms[to]) for at, to in enumerate(order)]
            alike = all(a.step == b.step and a.marks == b.marks and self.shapes[a.event] == self.shapes[b.event] for a, b in pairs)
            threads = {(a.thread, b.thread) for a, b in pairs}
            if alike and len(threads) == len({a for a, _ in threads}) == len({b for _, b in threads}):
                yield order

    def names_in(self, events):
        """The names of the parameters in an instance with these events."""
        names = {}
        for atom, event in zip(self.atoms, events):
            names = matched(self.shapes[atom.event], event, names)
        return names

    def why_harmless(self, recording, finding):
        """The line by which a finding is harmless, or None."""
        events = [recording.event(finding.window, name) for name in finding.events]
        names = self.names_in(events)
        holds = lambda condition: self.holds(condition, recording, finding, events, names) == condition.wanted
        return next((text for text, conditions in self.harmless.items() if all(map(holds, conditions))), None)

    def holds(self, condition, recording, finding, events, names):
        if condition.kind == 'equal':
            return events[condition.first][-1] == events[condition.last][-1]
        thread, first = map(int, finding.events[condition.first].split('.'))
        _, last = map(int, finding.events[condition.last].split('.'))
        segment = recording.segment(finding.window, thread)[min(first, last) + 1:max(first, last)]
        return any(matched(condition.shape, event, names) is not None for event in segment)


def read_harmless(property_, lines):
    for number, text in lines:
        try:
            conditions = [property_.condition(words.split()) for words in re.split(r'\s+and\s+', text)]
        except Fault as fault:
            raise Fault('line %d: %s' % (number, fault)) from None
        property_.harmless[text] = conditions


def read_properties(text):
    """The properties of a text that gpredict takes, by name."""
    properties, comments = {}, {}
    for number, line in enumerate(text.splitlines(), 1):
        kind, *words = line.split() or ['#']
        if kind == 'property':
            last = properties[words[0]] = Property(words[0])
        elif kind == 'event':
            last.shapes[words[0]] = tuple(words[1:])
        elif kind == 'pattern':
            last.read_pattern(words)
        elif found := HARMLESS.match(line):
            if not properties:
                raise Fault('line %d: no property stands before it' % number)
            comments.setdefault(last.name, []).append((number, ' '.join(found[1].split())))
    for name, lines in comments.items():
        read_harmless(properties[name], lines)
    return properties
