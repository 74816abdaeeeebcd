"""What task stuck has to say of a recording, by what its words mean: cycles by trying all lists of two to four events, and whether
one is stuck by trying all orders. It is for small recordings that read without a fault, and for nothing fast."""
import itertools, os

MOST_CYCLES = 10000
TAKES = {'acquire': 'alone', 'racquire': 'shared'}
GIVES = {'release', 'rrelease'}


def lines_of(folder, name):
    with open(os.path.join(folder, name)) as file:
        for line in file:
            words = line.split()
            if words and not words[0].startswith('#'):
                yield words


def excludes(held, wanted):
    """Whether a lock that one thread holds so keeps another from taking it so."""
    return held is not None and 'alone' in (held, wanted)


class Recording:
    def __init__(self, folder):
        manifest = list(lines_of(folder, 'manifest'))
        self.threads, self.windows = int(manifest[1][1]), int(manifest[2][1])
        self.roots = set(map(int, manifest[3][1:]))
        self.values = {(int(words[1]), words[2]): int(words[3]) for words in manifest[4:]}
        self.segments = {}
        for thread in range(1, self.threads + 1):
            segment, window = [], 1
            for words in lines_of(folder, 't%d.trace' % thread):
                if words == ['mark']:
                    self.segments[window, thread] = segment
                    segment, window = [], window + 1
                else:
                    segment.append(words)
            self.segments[window, thread] = segment

    def window(self, number):
        return Window(self, number)


class Window:
    def __init__(self, recording, number):
        self.number = number
        self.segments = {thread: recording.segments[number, thread] for thread in range(1, recording.threads + 1)}
        self.started, self.ended, self.held = set(recording.roots), set(), {}
        for (window, thread), segment in sorted(recording.segments.items()):
            if window >= number:
                continue
            for words in segment:
                if words[0] == 'start':
                    self.started.add(int(words[1]))
                elif words[0] == 'exit':
                    self.ended.add(thread)
                else:
                    use_lock(self.held, thread, words)
        self.values = {}
        for (window, name), value in sorted(recording.values.items()):
            if window <= number:
                self.values[name] = value

    def events(self):
        return [(thread, index) for thread, segment in sorted(self.segments.items()) for index in range(len(segment))]

    def held_before(self, thread, index):
        """How a thread holds its locks just before its event of this index, by its own trace."""
        held = dict(self.held)
        for words in self.segments[thread][:index]:
            use_lock(held, thread, words)
        return {lock: mode for (lock, holder), mode in held.items() if holder == thread}

    def cycles(self):
        """All cycles in order; None where they are too many."""
        takers = [(thread, index) for thread, index in self.events() if self.segments[thread][index][0] in TAKES
                  and (index > 0 or thread in self.started)]
        held = {event: self.held_before(*event) for event in takers}

        def waits(one, other):
            word, lock = self.segments[one[0]][one[1]]
            return excludes(held[other].get(lock), TAKES[word])

        found = []
        holding = [event for event in takers if held[event]]
        for count in (2, 3, 4):
            for events in itertools.product(holding, repeat=count):
                threads = [thread for thread, _ in events]
                if len(set(threads)) == count and threads[0] == min(threads) \
                        and all(waits(events[at], events[(at + 1) % count]) for at in range(count)):
                    found.append(events)
        return None if len(found) > MOST_CYCLES else sorted(found)

    def start(self):
        return State(tuple(0 for _ in self.segments), told(self.values))

    def next(self, state, thread):
        """The state after the next event of a thread, or None where it may not happen."""
        index = state.counts[thread - 1]
        if index == len(self.segments[thread]):
            return None
        started, ended, held = set(self.started), set(self.ended), dict(self.held)
        for other, segment in self.segments.items():
            for words in segment[:state.counts[other - 1]]:
                if words[0] == 'start':
                    started.add(int(words[1]))
                elif words[0] == 'exit':
                    ended.add(other)
                else:
                    use_lock(held, other, words)
        words, values = self.segments[thread][index], dict(state.values)
        if thread not in started:
            return None
        if words[0] in TAKES and any(lock == words[1] and excludes(mode, TAKES[words[0]]) for (lock, _), mode in held.items()):
            return None
        if words[0] == 'read' and values.get(words[1], 0) != int(words[2]):
            return None
        if words[0] == 'join':
            other = int(words[1])
            if other not in started or other not in ended or state.counts[other - 1] < len(self.segments[other]):
                return None
        if words[0] == 'write':
            values[words[1]] = int(words[2])
        counts = state.counts[:thread - 1] + (index + 1,) + state.counts[thread:]
        return State(counts, told(values))

    def reached(self, most):
        """How many events of each thread can have happened, in all ways; None where there are more states than that."""
        seen, waiting = set(), [self.start()]
        while waiting:
            state = waiting.pop()
            if state in seen:
                continue
            seen.add(state)
            if len(seen) > most:
                return None
            waiting += [after for thread in self.segments if (after := self.next(state, thread))]
        return {state.counts for state in seen}

    def ends_stuck(self, schedule, cycle):
        """Whether a schedule is feasible and ends with each thread of the cycle just before its event, which may not happen."""
        state = self.start()
        for thread, index in schedule:
            if thread not in self.segments or state.counts[thread - 1] != index:
                return False
            state = self.next(state, thread)
            if state is None:
                return False
        return all(state.counts[thread - 1] == index and self.next(state, thread) is None for thread, index in cycle)

    def is_stuck(self, cycle, reached):
        return any(all(counts[thread - 1] == index for thread, index in cycle) for counts in reached)


class State:
    def __init__(self, counts, values):
        self.counts, self.values = counts, values

    def __eq__(self, other):
        return (self.counts, self.values) == (other.counts, other.values)

    def __hash__(self):
        return hash((self.counts, self.values))


def told(values):
    """Values of variables, each of which is 0 where it is not told."""
    return tuple(sorted((name, value) for name, value in values.items() if value))


def use_lock(held, thread, words):
    if words[0] in TAKES:
        held[words[1], thread] = TAKES[words[0]]
    elif words[0] in GIVES:
        del held[words[1], thread]


def ids_of(words):
    return tuple(tuple(map(int, word.split('.'))) for word in words)


def answers_of(lines):
    """What a report says: for each window that is not too large its number and its cycles, each with `found` and a schedule, or the
    first word of its answer; None in the place of too many cycles."""
    windows, at = [], 2
    while not lines[at].startswith('summary '):
        words = lines[at].split()
        at += 1
        if words[0] == 'window':
            number = int(words[1])
        elif words[0] == 'property':
            windows.append((number, None if words[2] == 'toomany' else []))
        elif words[0] == 'instance':
            answer = lines[at].split()
            at += 1
            schedule = []
            if answer[0] == 'found':
                count = (int(answer[1]) + 99) // 100
                schedule = [event for line in lines[at:at + count] for event in ids_of(line.split())]
                at += count
            windows[-1][1].append((ids_of(words[2:]), answer[0], schedule))
    return windows


def fault_of(folder, text, most=20000):
    """What is wrong with a report of the deadlocks of a recording, or None."""
    recording = Recording(folder)
    for number, answers in answers_of(text.split('\n')):
        window = recording.window(number)
        cycles = window.cycles()
        if (None if answers is None else [cycle for cycle, _, _ in answers]) != cycles:
            return 'window %d has the cycles %r' % (number, cycles)
        reached = window.reached(most) if cycles else None
        for cycle, answer, schedule in answers or []:
            if answer == 'found' and not window.ends_stuck(schedule, cycle):
                return 'the schedule of %r does not end stuck' % (cycle,)
            if answer == 'impossible' and reached is not None and window.is_stuck(cycle, reached):
                return '%r is told as impossible and is stuck' % (cycle,)
    return None
