"""Nodes with `--log`, whose standard error is read as lines of JSON: what the scripts share that see by it what nodes
do."""
import json
import os
import threading
import time

from desk_nodes import file_of, same, serve, until


class Logged:
    """A node with a log, and the lines of its standard error so far, which are read from the start on or later."""

    def __init__(self, first, node, room, words=(), before=(), log=('--log',), is_read=True):
        self.node, self.begun, self.reported = node, time.time(), []
        self.program = serve(first, node, file_of(room, node), words=(*log, *words), before=before)
        self.reader = threading.Thread(target=self.read, daemon=True)
        if is_read:
            self.reader.start()

    def read(self):
        for line in self.program.run.stderr:
            self.reported.append(line)

    def fill(self):
        """Fills the pipe of the standard error with empty lines, so that the node's next write waits for who reads."""
        end = os.open(f'/proc/self/fd/{self.program.run.stderr.fileno()}', os.O_WRONLY | os.O_NONBLOCK)
        try:
            while True:
                os.write(end, b'\n')
        except BlockingIOError:
            pass
        finally:
            os.close(end)

    def lines(self):
        """What was reported so far, each line read as JSON."""
        return [json.loads(line) for line in list(self.reported) if line != b'\n']

    def refused(self):
        """The lines that tell of who was refused."""
        return [line for line in self.lines() if line['event'] == 'refused']

    def suppressed(self):
        """How many events got no line, as far as that is reported."""
        return sum(line['count'] for line in self.lines() if line['event'] == 'suppressed')

    def has(self, event, **members):
        """Whether a line reports this event, with these members."""
        return any({'event': event, **members}.items() <= line.items() for line in self.lines())

    def view(self):
        """The view that it reported last."""
        return [line['view'] for line in self.lines() if line['event'] == 'view'][-1]

    def is_level(self):
        """Whether it has reported that it is level since it reported that it is behind."""
        return [line['event'] for line in self.lines() if line['event'] in ('behind', 'level')][-1:] != ['behind']

    def leaders(self, epoch):
        """Who led in the views of an epoch that it reported, in order, each with the milliseconds since the epoch began
        there."""
        found, now, began = [], None, 0
        for line in self.lines():
            if line['event'] == 'epoch':
                now, began = line['epoch'], line['time']
            elif line['event'] == 'view' and now == epoch:
                found.append((line['leader'], line['time'] - began))
        return found

    def epochs(self):
        """The epochs that it reported, in order, and where it was behind and level between them."""
        return [line.get('epoch', line['event']) for line in self.lines()
                if line['event'] in ('epoch', 'behind', 'level')]

    def must_tell(self, event, seconds=10, **members):
        if not until(seconds, lambda: self.has(event, **members)):
            raise AssertionError(f'node {self.node} reported no {event} {members}, but {self.reported}')

    def compare(self):
        """Each line begins as it must, at a time from the start of the node to now, and no time falls."""
        for line in self.lines():
            same((list(line)[:3], line['node']), (['event', 'node', 'time'], self.node), f'the front of {line}')
        times = [line['time'] for line in self.lines()]
        same(times, sorted(times), 'times')
        same(all(1_000 * self.begun - 1 <= it <= 1_000 * time.time() + 1 for it in times), True, 'the range of times')

    def end(self, seconds=20):
        """Ends the standard input, and gives the status."""
        self.program.run.stdin.close()
        self.program.run.wait(timeout=seconds)
        if self.reader.is_alive():
            self.reader.join(seconds)
        return self.program.run.returncode

    def kill(self):
        self.program.run.kill()
        self.program.run.wait()
        self.reader.join(20)
