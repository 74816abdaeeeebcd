"""The constraints of a window over symbols, and what an instance assumes, by what docs/FORMATS.md and docs/DEFINITIONS.md say of them:
clause for clause those of the program, in its order. Nothing here is taken from the program.

Events are points, numbered from 0 in the order of thread and index. A symbol is a letter and its numbers:

    x p      point p is executed                    c r w    read r sees write w
    o a b    point a is before point b, a < b       s r      read r sees the start value
    d a b n  place a - place b is at most n         f a c    the section that a begins comes before the one that c begins

A literal is a symbol and whether it holds, and a clause a list of literals."""


def holds(letter, *numbers):
    return (letter, *numbers), True


def fails(letter, *numbers):
    return (letter, *numbers), False


def simplified(terms):
    """The clause of these terms, literals or constants: none where one is true."""
    if True not in terms:
        yield [term for term in terms if term is not False]


class Constraints:
    def __init__(self, window):
        self.window = window
        self.ids = window.ids()
        self.number = {event: point for point, event in enumerate(self.ids)}
        self.events = [window.event(*event) for event in self.ids]
        self.points = range(len(self.ids))
        self.starts = {int(event[1]): point for point, event in enumerate(self.events) if event[0] == 'start'}
        self.writes, self.takes, self.gives = {}, {}, {}
        for point, (kind, *names) in enumerate(self.events):
            if kind == 'write':
                self.writes.setdefault(names[0], []).append((point, int(names[1])))
            elif kind in ('acquire', 'racquire'):
                self.takes.setdefault(names[0], []).append((point, kind == 'acquire'))
            elif kind in ('release', 'rrelease'):
                self.gives.setdefault((names[0], self.thread(point)), []).append((point, kind == 'release'))

    def thread(self, point):
        return self.ids[point][0]

    def is_first(self, point):
        return self.ids[point][1] == 0

    def order(self, one, other):
        """That one point is before another: known in one thread."""
        if self.thread(one) == self.thread(other):
            return one < other
        return holds('o', one, other) if one < other else fails('o', other, one)

    def edges(self):
        """The neighbours in a thread: the place of the second is the greater one."""
        return [(point - 1, point) for point in self.points if not self.is_first(point)]

    def clauses(self):
        for family in (self.program_order, self.thread_starts, self.joins, self.reads, self.choices, self.start_choices, self.sections, self.held_locks):
            yield from family()

    def preceded(self, guards, found, point):
        """Unless one of the guards holds, there is such a point, executed and before the other."""
        if found is None:
            yield guards
        else:
            yield guards + [holds('x', found)]
            yield from simplified(guards + [self.order(found, point)])

    def needs(self, point, found):
        yield from self.preceded([fails('x', point)], found, point)

    def program_order(self):
        for earlier, later in self.edges():
            yield [fails('x', later), holds('x', earlier)]

    def thread_starts(self):
        for point in self.points:
            if self.is_first(point) and self.thread(point) not in self.window.started:
                yield from self.needs(point, self.starts.get(self.thread(point)))

    def joins(self):
        for point in self.points:
            if self.events[point][0] == 'join':
                yield from self.join(point, int(self.events[point][1]))

    def join(self, point, thread):
        size = len(self.window.segments.get(thread, []))
        if thread not in self.window.exited:
            yield [fails('x', point)]
        elif size:
            yield from self.needs(point, self.number[thread, size - 1])
        elif thread not in self.window.started:
            yield from self.needs(point, self.starts.get(thread))

    def all_reads(self):
        """Each read with its variable and its value."""
        for point, (kind, *names) in enumerate(self.events):
            if kind == 'read':
                yield point, names[0], int(names[1])

    def seen_by(self, read, variable, value):
        """The writes that a read may see: of its value, and not after it in its thread."""
        return [write for write, written in self.writes.get(variable, [])
                if written == value and not (self.thread(write) == self.thread(read) and read < write)]

    def rivals(self, variable, value):
        return [write for write, written in self.writes.get(variable, []) if written != value]

    def finds_at_start(self, variable, value):
        return self.window.values.get(variable, 0) == value

    def reads(self):
        for read, variable, value in self.all_reads():
            seen = [holds('c', read, write) for write in self.seen_by(read, variable, value)]
            yield [fails('x', read)] + seen + ([holds('s', read)] if self.finds_at_start(variable, value) else [])

    def choices(self):
        for read, variable, value in self.all_reads():
            for write in self.seen_by(read, variable, value):
                chosen = fails('c', read, write)
                yield from self.preceded([chosen], write, read)
                for rival in self.rivals(variable, value):
                    yield from simplified([chosen, fails('x', rival), self.order(rival, write), self.order(read, rival)])

    def start_choices(self):
        for read, variable, value in self.all_reads():
            if self.finds_at_start(variable, value):
                for rival in self.rivals(variable, value):
                    yield from simplified([fails('s', read), fails('x', rival), self.order(read, rival)])

    def end_of(self, lock, thread, alone, begin):
        """The first point from `begin` on by which a thread gives back a lock that it holds so."""
        return next((point for point, also in self.gives.get((lock, thread), []) if point >= begin and also == alone), None)

    def sections(self):
        for one in self.points:
            kind, *names = self.events[one]
            if kind in ('acquire', 'racquire'):
                for other, alone in self.takes[names[0]]:
                    if self.thread(one) < self.thread(other) and (alone or kind == 'acquire'):
                        yield from self.apart(names[0], one, kind == 'acquire', other, alone)

    def apart(self, lock, one, one_alone, other, other_alone):
        executed = [fails('x', one), fails('x', other)]
        end = self.end_of(lock, self.thread(one), one_alone, one)
        yield from self.preceded(executed + [fails('f', one, other)], end, other)
        end = self.end_of(lock, self.thread(other), other_alone, other)
        yield from self.preceded(executed + [holds('f', one, other)], end, one)

    def held_locks(self):
        """Who holds a lock when the window begins gives it back before another thread takes it against that."""
        held = [(lock, thread, True) for lock, thread in self.window.holders.items()] + [(lock, thread, False) for lock, thread in self.window.readers]
        for lock, thread, held_alone in sorted(held):
            end = self.end_of(lock, thread, held_alone, 0)
            for point, alone in self.takes.get(lock, []):
                if self.thread(point) != thread and (held_alone or alone):
                    yield from self.needs(point, end)

    def assumed(self, steps):
        """What is assumed of an instance, whose events are given step by step."""
        groups = [[self.number[event] for event in step] for step in steps]
        lits = [holds('x', point) for group in groups for point in group]
        for before, after in zip(groups, groups[1:]):
            orders = [self.order(one, other) for one in before for other in after]
            lits += [lit for lit in orders if not isinstance(lit, bool)]
        for group in groups:
            lits += [holds('d', one, other, len(group) - 1) for one in group for other in group if one != other]
        return lits

    def sides(self, steps):
        """On which side of each event of a group each event of another thread stands."""
        for step in steps:
            for one in [self.number[event] for event in step if len(step) > 1]:
                for other in self.points:
                    if self.thread(one) != self.thread(other):
                        yield ('o', min(one, other), max(one, other))
