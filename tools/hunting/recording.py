"""What hunt reads of a folder that the recorder wrote: the events of each thread, and where in the program each of them is."""
import os
from typing import NamedTuple

FILES = {'analyse': 'report', 'notify': 'notified', 'stuck': 'deadlocks'}  # the file for a task's report
CONDITIONS = ('sleep', 'wake', 'notify', 'notifyall')


class Place(NamedTuple):
    """Where in the program an event is. The file and the function are words as the file of places has them."""
    file: str
    line: str
    function: str

    def __str__(self):
        return '%s:%s in %s' % self


def lines_of(folder, name):
    """The lines of a file of the folder without comments, each as its words; none where the file is not there."""
    path = os.path.join(folder, name)
    if not os.path.exists(path):
        return []
    with open(path, encoding='ascii') as file:
        return [words for line in file if (words := line.split()) and not words[0].startswith('#')]


def cut(lines):
    """The segments between the lines `mark`, one for each window."""
    segments = [[]]
    for words in lines:
        if words == ['mark']:
            segments.append([])
        else:
            segments[-1].append(words)
    return segments


class Recording:
    """The recording in a folder. Windows and threads are counted from 1, and an event of a window is known as T.X."""

    def __init__(self, folder):
        self.folder = folder
        threads = sum(name.endswith('.trace') for name in os.listdir(folder))
        self.segments = {thread: cut(lines_of(folder, 't%d.trace' % thread)) for thread in range(1, threads + 1)}
        self.numbers = {thread: cut(lines_of(folder, 't%d.places' % thread)) for thread in self.segments}
        lines = lines_of(folder, 'places')
        files = [words[1] for words in lines if words[0] == 'file']
        self.places = [Place(files[int(words[1]) - 1], *words[2:]) for words in lines if words[0] == 'place']

    def segment(self, window, thread):
        return self.segments[thread][window - 1]

    def event(self, window, name):
        """The words of an event, as its trace has them."""
        thread, index = map(int, name.split('.'))
        return self.segment(window, thread)[index]

    def place(self, window, name):
        """Where an event is, or None where no place of it is known."""
        thread, index = map(int, name.split('.'))
        numbers = self.numbers[thread][window - 1:window]
        number = int(numbers[0][index][0]) if numbers and index < len(numbers[0]) else 0
        return self.places[number - 1] if number else None

    def events(self):
        """The words of each event of all threads."""
        return (words for segments in self.segments.values() for segment in segments for words in segment)

    def has_conditions(self):
        return any(words[0] == 'op' and words[1] in CONDITIONS and len(words) == 3 for words in self.events())
