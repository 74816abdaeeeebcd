"""What tasks analyse and notify have to say of a recording, by what their words mean: whether an instance is possible by trying all
orders, and what is owed by a schedule and by the signals of its wakes. `make` writes small recordings with conditions at random."""
import os

from small_windows import State, lines_of, windows_of

PATTERNS = ['d@t', 'd@t n@u', 'd@t e@u', 'n@u w@t', 'w@t n@u', 's@t w@u', 'n@t d@u w@t', 'n@u s@t d@t', 'w@t || n@u', 'd@t || e@u',
            'w@t || n@u d@t', 's@t || w@u || n@v']
EVENTS = ['event s op sleep $o', 'event w op wake $o', 'event n op notify $o', 'event d op done', 'event e op done']


def call_of(event):
    """The call of a condition that an event is, and the condition, or None."""
    if event is not None and len(event) == 3 and event[0] == 'op' and event[1] in ('sleep', 'wake', 'notify', 'notifyall'):
        return event[1], event[2]
    return None


def wakes_of(window):
    """Each wake with its sleep, or with None."""
    wakes = {}
    for thread, index in window.ids():
        called = call_of(window.event(thread, index))
        if called is not None and called[0] == 'wake':
            before = [(call_of(window.event(thread, at)), at) for at in range(index)]
            turns = [(what, at) for what, at in before if what in (('sleep', called[1]), ('wake', called[1]))]
            asleep = turns and turns[-1][0][0] == 'sleep'
            wakes[thread, index] = (thread, turns[-1][1]) if asleep else None
    return wakes


def unpaired(window):
    return next((wake for wake, sleep in sorted(wakes_of(window).items()) if sleep is None), None)


def serves(window, wake, signal):
    """Whether an event signals the condition of a wake, from another thread."""
    called, waits = call_of(window.event(*signal)), call_of(window.event(*wake))
    return called is not None and called[0] in ('notify', 'notifyall') and called[1] == waits[1] and signal[0] != wake[0]


def sleepers(window, wakes, state, signal, signalled):
    """The wakes to come that a signal may serve: their threads sleep, and were not signalled."""
    return [wake for wake, sleep in wakes.items() if serves(window, wake, signal) and wake not in signalled
            and sleep[1] < state.counts[wake[0]] <= wake[1]]


def signalled_after(window, wakes, state, event, signalled):
    """Which wakes may have had their signal after an event: a notify serves one that sleeps, or none."""
    called = call_of(window.event(*event))
    if called is None or called[0] not in ('notify', 'notifyall'):
        return [signalled]
    asleep = sleepers(window, wakes, state, event, signalled)
    if called[0] == 'notifyall':
        return [signalled | frozenset(asleep)]
    return [signalled] + [signalled | {wake} for wake in asleep]


def is_possible(window, steps, by_signals):
    """Whether some schedule has the events of each step after those of the step before, those of a step side by side; where it goes by
    signals, with a signal for each of its wakes."""
    wakes = wakes_of(window) if by_signals else {}
    stack = [(State(window), 0, steps[0], frozenset())]
    seen = set()
    while stack:
        state, place, due, signalled = stack.pop()
        if place == len(steps):
            return True
        to_come = frozenset(wake for wake in signalled if wake[1] >= state.counts[wake[0]])
        key = state.key(), place, due, to_come
        if key in seen:
            continue
        seen.add(key)
        for thread, index in list(state.counts.items()):
            event = thread, index
            if not state.allows(thread, index) or event in wakes and event not in signalled:
                continue
            where = next((at for at, step in enumerate(steps) if event in step), None)
            if due != steps[place] and event not in due or where not in (None, place):
                continue
            left = due - {event}
            at = place if left else place + 1
            then = left or (steps[at] if at < len(steps) else frozenset())
            for served in signalled_after(window, wakes, state, event, signalled):
                stack.append((state.after(thread, index), at, then, served))
    return False


def fault_of_schedule(window, steps, schedule):
    """What is wrong with a schedule that is to show these steps, or None."""
    state = State(window)
    for event in schedule:
        if not state.allows(*event):
            return 'stuck at %d.%d' % event
        state = state.after(*event)
    last = -1
    for step in steps:
        places = sorted(schedule.index(event) for event in step if event in schedule)
        if len(places) != len(step) or places[-1] - places[0] != len(step) - 1 or places[0] <= last:
            return 'the instance does not happen in the schedule'
        last = places[-1]
    return None


def fault_of_pairs(window, schedule, pairs):
    """What is wrong with the pairs of a schedule, or None."""
    wakes = wakes_of(window)
    if sorted(wake for wake, _ in pairs) != sorted(wake for wake in wakes if wake in schedule):
        return 'the pairs are not those of its wakes'
    for wake, signal in pairs:
        if not serves(window, wake, signal) or signal not in schedule:
            return '%d.%d does not serve %d.%d' % (signal + wake)
        if not schedule.index(wakes[wake]) < schedule.index(signal) < schedule.index(wake):
            return '%d.%d does not come between the sleep and the wake %d.%d' % (signal + wake)
    alone = [signal for _, signal in pairs if call_of(window.event(*signal))[0] == 'notify']
    return None if len(alone) == len(set(alone)) else 'a notify serves two wakes'


def id_of(word):
    thread, index = word.split('.')
    return int(thread), int(index)


def listed(lines, at, count):
    """The words of a list that begins at a line, and the line behind it."""
    size = (count + 99) // 100
    return [word for line in lines[at:at + size] for word in line.split()], at + size


def steps_at(lines, at, count):
    """The lines of so many steps, and the line behind them."""
    first = at
    for _ in range(count):
        literals, hints = map(int, lines[at].split()[1:])
        at += 1 + (literals + 99) // 100 + (hints + 99) // 100
    return lines[first:at], at


def answers_of(text):
    """The answers of a report: of each its window, its property, its events, its kind, its schedule or the lines of its steps, and its
    pairs (None where none are told); and of each window that is not asked its number and its wake."""
    lines, at = text.split('\n')[:-1], 0
    answers, left_out = [], []
    window, name, events = 0, '', []
    while at < len(lines):
        words, at = lines[at].split(), at + 1
        if words[0] == 'window':
            window = int(words[1])
        elif words[0] == 'unpaired':
            left_out.append((window, id_of(words[1])))
        elif words[0] == 'property':
            name = words[1]
        elif words[0] == 'instance':
            events = [id_of(word) for word in words[2:]]
        elif words[0] == 'found':
            schedule, at = listed(lines, at, int(words[1]))
            pairs = None
            if at < len(lines) and lines[at].startswith('pairs '):
                told, at = listed(lines, at + 1, 2 * int(lines[at].split()[1]))
                pairs = list(zip(map(id_of, told[::2]), map(id_of, told[1::2])))
            answers.append((window, name, events, 'found', [id_of(word) for word in schedule], pairs))
        elif words[0] == 'impossible':
            steps, at = steps_at(lines, at, int(words[1]))
            answers.append((window, name, events, 'impossible', steps, None))
        elif words[0] == 'undecided':
            answers.append((window, name, events, 'undecided', None, None))
    return answers, left_out


def steps_of(folder):
    """The sizes of the steps of each property's pattern."""
    steps, name = {}, ''
    for words in lines_of(os.path.join(folder, 'props')):
        if words[0] == 'property':
            name = words[1]
        elif words[0] == 'pattern':
            sizes, joins = [], False
            for word in words[1:]:
                if word == '||':
                    joins = True
                elif joins:
                    sizes[-1], joins = sizes[-1] + 1, False
                else:
                    sizes.append(1)
            steps[name] = sizes
    return steps


def parted(events, sizes):
    parts, at = [], 0
    for size in sizes:
        parts.append(frozenset(events[at:at + size]))
        at += size
    return parts


def fault_of_answer(windows, steps, answer, by_signals, searched):
    window, name, events, kind, schedule, pairs = answer
    now, parts = windows[window - 1], parted(events, steps[name])
    fault = None
    if kind == 'found':
        fault = fault_of_schedule(now, parts, schedule)
        if fault is None and by_signals:
            fault = fault_of_pairs(now, schedule, pairs)
    elif kind == 'impossible' and searched and is_possible(now, parts, by_signals):
        fault = 'told as impossible, and it is possible'
    return None if fault is None else 'window %d, %s %s: %s' % (window, name, events, fault)


def fault_of_answers(folder, text, by_signals, searched):
    """What is wrong with the answers of a report, or None. Where its windows are small, what is impossible is searched for."""
    windows, steps = windows_of(folder), steps_of(folder)
    answers, left_out = answers_of(text)
    if by_signals:
        large = {number for number, line in told_windows(text) if line.startswith('toolarge ')}
        due = [(number, unpaired(window)) for number, window in enumerate(windows, 1) if number not in large]
        if [pair for pair in due if pair[1] is not None] != left_out:
            return 'the windows that are not asked are %r' % (left_out,)
    faults = (fault_of_answer(windows, steps, answer, by_signals, searched) for answer in answers)
    return next((fault for fault in faults if fault is not None), None)


def told_windows(text):
    """Of each window its number and the line behind it."""
    lines = text.split('\n')
    return [(int(line.split()[1]), lines[at + 1]) for at, line in enumerate(lines) if line.startswith('window ')]


def random_turn(rng):
    """Some events in a row of one thread."""
    condition = rng.choice('ccccd')
    if rng.random() < 0.03:
        return ['op wake ' + condition]
    between = [rng.choice(['op notify c', 'op other', 'read x 0'])] if rng.random() < 0.2 else []
    return rng.choice([
        ['op sleep ' + condition, *between, 'op wake ' + condition],
        ['op sleep ' + condition, *between, 'op wake ' + condition],
        ['op notify ' + condition], ['op notify ' + condition], ['op notifyall ' + condition],
        ['write x %d' % rng.randrange(2)], ['read x %d' % rng.randrange(2)],
        ['acquire l', *rng.choice([['op notify c'], ['op other'], ['write x 1']]), 'release l'],
        ['op done'], ['op sleep ' + condition], ['op notify c m'],
    ])


def random_trace(rng, epochs):
    lines = []
    for epoch in range(epochs):
        segment = []
        while len(segment) < rng.randint(2, 5):
            segment += random_turn(rng)
        lines += segment + (['op done'] if rng.random() < 0.8 else []) + (['mark'] if epoch + 1 < epochs else [])
    return lines


def make(rng, folder):
    """Writes a small recording with conditions, and properties that speak of them."""
    threads, epochs = rng.choice([2, 2, 3]), rng.choice([1, 1, 1, 2])
    traces = [random_trace(rng, epochs) for _ in range(threads)]
    roots = list(range(1, threads + 1))
    if epochs == 1 and rng.random() < 0.3:
        traces[0].insert(rng.randrange(2), 'start %d' % roots.pop())
    write(folder, 'manifest', ['gptrace 1', 'threads %d' % threads, 'epochs %d' % epochs, 'roots ' + ' '.join(map(str, roots))])
    for thread, lines in enumerate(traces, 1):
        write(folder, 't%d.trace' % thread, lines)
    props = []
    for number, pattern in enumerate(rng.sample(PATTERNS, 3)):
        props += ['property p%d' % number, *EVENTS, 'pattern ' + pattern]
    write(folder, 'props', props)


def write(folder, name, lines):
    with open(os.path.join(folder, name), 'w') as file:
        file.write(''.join(line + '\n' for line in lines))
