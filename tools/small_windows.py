"""The windows of a recording that is accepted, and what may happen in them one event after another, by what the words mean. It is for
small recordings, and for nothing fast. Nothing here is taken from the program."""
import os


def lines_of(path):
    with open(path) as file:
        lines = [line.split() for line in file]
    return [words for words in lines if words and not words[0].startswith('#')]


class Window:
    """What a window begins with, and the events of each thread in it."""

    def __init__(self):
        self.segments, self.values, self.holders, self.readers = {}, {}, {}, set()
        self.started, self.exited = set(), set()

    def event(self, thread, index):
        segment = self.segments.get(thread, [])
        return segment[index] if 0 <= index < len(segment) else None

    def ids(self):
        return [(thread, index) for thread in sorted(self.segments) for index in range(len(self.segments[thread]))]


def pass_over(window, thread, event):
    """What an event of an earlier window leaves of locks and starts."""
    kind, names = event[0], event[1:]
    if kind == 'acquire':
        window.holders[names[0]] = thread
    elif kind == 'release':
        del window.holders[names[0]]
    elif kind == 'racquire':
        window.readers.add((names[0], thread))
    elif kind == 'rrelease':
        window.readers.remove((names[0], thread))
    elif kind == 'start':
        window.started.add(int(names[0]))


def segments_of(lines):
    """The segments of a trace, and the number of the window in which the thread ended, or None."""
    segments, ended = [[]], None
    for words in lines:
        if words[0] == 'mark':
            segments.append([])
        elif words[0] == 'exit':
            ended = len(segments)
        else:
            segments[-1].append(tuple(words))
    return segments, ended


def windows_of(folder):
    """The windows of a recording that is accepted."""
    manifest = lines_of(os.path.join(folder, 'manifest'))
    threads, epochs = int(manifest[1][1]), int(manifest[2][1])
    traces = {thread: segments_of(lines_of(os.path.join(folder, 't%d.trace' % thread))) for thread in range(1, threads + 1)}
    told = {(int(words[1]), words[2]): int(words[3]) for words in manifest[4:]}
    windows = []
    for number in range(1, epochs + 1):
        window = Window()
        window.started = {int(word) for word in manifest[3][1:]}
        for (epoch, name) in sorted(told):
            if epoch <= number:
                window.values[name] = told[epoch, name]
        for thread, (segments, ended) in traces.items():
            left = Window()  # by this thread alone, since its locks may have been those of others before
            for event in [event for segment in segments[:number - 1] for event in segment]:
                pass_over(left, thread, event)
            window.holders.update(left.holders)
            window.readers |= left.readers
            window.started |= left.started
            window.segments[thread] = segments[number - 1]
            if ended is not None and ended <= number:
                window.exited.add(thread)
        windows.append(window)
    return windows


class State:
    """How far each thread is, and what is so then."""

    def __init__(self, window):
        self.window = window
        self.counts = {thread: 0 for thread in window.segments}
        self.values, self.holders = dict(window.values), dict(window.holders)
        self.readers, self.started = set(window.readers), set(window.started)

    def allows(self, thread, index):
        event = self.window.event(thread, index)
        if event is None or self.counts[thread] != index or thread not in self.started:
            return False
        kind, name = event[0], event[1] if len(event) > 1 else ''
        if kind == 'acquire':
            return name not in self.holders and all(lock != name for lock, _ in self.readers)
        if kind == 'racquire':
            return name not in self.holders
        if kind == 'read':
            return self.values.get(name, 0) == int(event[2])
        if kind == 'join':
            other = int(name)
            return other in self.started and other in self.window.exited and self.counts[other] == len(self.window.segments[other])
        return True

    def after(self, thread, index):
        other = State.__new__(State)
        other.window, other.counts = self.window, {**self.counts, thread: index + 1}
        other.values, other.holders = dict(self.values), dict(self.holders)
        other.readers, other.started = set(self.readers), set(self.started)
        event = self.window.event(thread, index)
        if event[0] == 'write':
            other.values[event[1]] = int(event[2])
        else:
            pass_over(other, thread, event)
        return other

    def key(self):
        return tuple(self.counts.values()), tuple(sorted(pair for pair in self.values.items() if pair[1] != 0))
