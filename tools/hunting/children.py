"""The commands that hunt runs, and how far it is with them."""
import os, signal, subprocess, sys, threading

BY_SIGNAL, ENDING_SECONDS, TERMINAL_COLUMNS = 128, 60, 78


class Broken(Exception):
    """The hunt is broken off by a signal."""


class Failed(Exception):
    """A program that hunt needs, or a file, fails."""


class Children:
    """The commands that run. What still runs when the hunt is broken off, or when its time is up, is ended with all that it started."""

    def __init__(self):
        self.lock, self.running, self.signal, self.over = threading.Lock(), set(), 0, False

    def begin(self, words, streams):
        with self.lock:
            if self.over:
                raise Broken
            running = subprocess.Popen(words, stdin=subprocess.DEVNULL, start_new_session=True, **streams)
            self.running.add(running)
        if self.over:
            end_group(running)
        return running

    def run(self, words, seconds, log=None):
        """The status of a command, None where its time was up, and what it printed, or nothing where that goes to a file."""
        streams = {'stdout': log, 'stderr': log} if log else {'stdout': subprocess.PIPE, 'stderr': subprocess.PIPE}
        try:
            running = self.begin(words, streams)
        except OSError as fault:
            raise Failed('%s does not run: %s' % (words[0], fault.strerror)) from None
        try:
            printed, told, in_time = *running.communicate(timeout=seconds), True
        except subprocess.TimeoutExpired:
            printed, told, in_time = *end_slowly(running), False
        finally:
            end_group(running)
            self.running.discard(running)
        if self.over:
            raise Broken
        text = '' if log else (printed + told).decode(errors='replace')
        return running.returncode if in_time else None, text

    def build(self, program):
        """Starts a program without words: its launcher builds it where that is needed, and tells how far it is. It says `words` then."""
        running = self.begin([program], {'stdout': subprocess.DEVNULL})
        status = running.wait()
        self.running.discard(running)
        if self.over:
            raise Broken
        if status != 2:
            raise Failed('%s without words ends with status %d' % (program, status))

    def stop(self, number, _):
        """A signal ends all that runs; a second one the hunt itself, at once."""
        if self.signal:
            os._exit(BY_SIGNAL + number)
        self.signal = number
        self.end_all()

    def end_all(self):
        self.over = True
        for running in list(self.running):
            end_group(running)


def end_slowly(running):
    """What a command prints that is asked to end, as the recorder then writes what it has; and is made to where that takes long."""
    running.terminate()
    try:
        return running.communicate(timeout=ENDING_SECONDS)
    except subprocess.TimeoutExpired:
        end_group(running)
        return running.communicate()


def end_group(running):
    try:
        os.killpg(running.pid, signal.SIGKILL)
    except ProcessLookupError:
        pass


class Progress:
    """How far the hunt is: on a terminal one line that is written over."""

    def __init__(self, seeds):
        self.lock, self.seeds = threading.Lock(), seeds
        self.recorded = self.analysed = self.found = self.confirmed = 0
        self.shown = sys.stderr.isatty()

    def add(self, **counts):
        with self.lock:
            for name, count in counts.items():
                setattr(self, name, getattr(self, name) + count)
            text = 'hunt: %d of %d recorded, %d analysed, %d bugs found, %d confirmed' % (
                self.recorded, self.seeds, self.analysed, self.found, self.confirmed)
            self.write(text)

    def write(self, text):
        if self.shown:
            sys.stderr.write('\r' + text[:TERMINAL_COLUMNS].ljust(TERMINAL_COLUMNS))
            sys.stderr.flush()

    def clear(self):
        if self.shown:
            sys.stderr.write('\r' + ' ' * TERMINAL_COLUMNS + '\r')
            sys.stderr.flush()
