"""What the recorder says of a run, and of one that does what is found."""
import re


class Run:
    """A run of the program by a seed: where it is recorded, and what the recorder told."""

    def __init__(self, seed, folder):
        self.seed, self.folder, self.log = seed, folder, folder + '.log'
        self.recording, self.told, self.status, self.analysed = None, [], None, None

    def read_log(self):
        with open(self.log, errors='replace') as file:
            self.told = [line[len('gprecord: '):].rstrip() for line in file if line.startswith('gprecord: ')]

    def how_it_ended(self):
        """The roles of a bug where the run did not end well, and the recorder's words for it."""
        if self.status is None:
            return ('timeout',), 'its time was up'
        ends = [line for line in self.told if re.match(r'the (run came|program ended) |thread \d+ ended the run', line)]
        if self.status != 1 or not ends:
            return None
        if found := re.match(r'the program ended (?:by|with) (signal|status) (\d+)', ends[0]):
            return ('.'.join(found.groups()),), ends[0]
        if ends[0].startswith('thread'):
            return ('gave_up',), ends[0]
        waits = [line for line in self.told if re.match(r'thread \d+ waits for ', line)]
        what = {re.sub(r'thread \d+ waits for the (end of )?', '', line) for line in waits}
        roles = sorted('thread' if text.startswith('thread ') else text.replace(' ', '.', 1).replace(' ', '_') for text in what)
        return ('stopped', *dict.fromkeys(roles)), '; '.join([ends[0].rstrip(':'), *waits])


def verdict_of(status, text):
    """A line of what `gprecord confirm` says."""
    found = re.search(r'^(confirmed|stuck|left the schedule at .*|does not repeat)$', text, re.MULTILINE)
    if status == 0 and found:
        ended = re.search(r'^the program ended with .*$', text[found.start():], re.MULTILINE)
        return '; '.join(filter(None, ['confirmed' + ', stuck' * (found[1] == 'stuck'), ended and ended[0]]))
    if status is None:
        return 'not confirmed: its time was up'
    lines = [line for line in text[found.start() if found else 0:].splitlines() if line.strip()]
    return 'not confirmed: ' + ('; '.join(lines[:3]) if found else (lines or ['the recorder says nothing'])[-1])
