"""A node that two others send the logs of epochs that are over: what a script needs that stops it as it takes them."""
import os
import signal

from command_bytes import body_of
from desk_clients import LONG_SECONDS, SECONDS, SHOW, Client, Group
from desk_nodes import ask_once, clear, copy_of, file_of, first_port, same, serve, until
from desk_replies import is_filled, is_sound, is_whole, rows_of

# an epoch has so few places; two of them are over behind so many commands, and a third has begun
PLACES, COMMANDS = 4, 9


class SentLogs:
    """Runs of node 1 of 3, whose files are in a folder and are not there at first, behind nodes 0 and 2."""

    def __init__(self, room):
        self.room, self.first, self.file = room, first_port(), file_of(room, 1)
        self.others = [self.serve(node, file_of(room, node)) for node in (0, 2)]
        same([it.is_ready() for it in self.others], [True] * 2, 'nodes 0 and 2 are ready')
        client = Client(Group(room, [self.first] * 3, 0, 0), 'client', 3)
        for number in range(COMMANDS):
            client.do(client.drawer.command('open', {'kind': 'fire', 'where': f'{number} Elm St'}))
        client.leave()
        self.rows = [(it['session'], it['number'], body_of(it, SECONDS)) for it in client.sent]
        self.board = ask_once(self.first, 0, SHOW)

    def serve(self, node, file):
        return serve(self.first, node, file, words=['--epoch-places', PLACES])

    def signal(self, number):
        for it in self.others:
            os.kill(it.run.pid, number)

    def begin(self):
        clear(self.file)

    def run(self, attach=None):
        """Node 1 is served until its board is that of the others, or it ends. `attach` is called with its process once
        it is ready, before the others say anything. It gives its status, and what it printed."""
        self.signal(signal.SIGSTOP)
        try:
            node = self.serve(1, self.file)
            same(node.is_ready(), True, 'node 1 is ready')
            if attach is not None:
                attach(node.run.pid)
        finally:
            self.signal(signal.SIGCONT)
        is_level = lambda: node.run.poll() is not None or ask_once(self.first, 1, SHOW) == self.board
        same(bool(until(LONG_SECONDS, is_level)), True, 'the board of node 1 is that of the others')
        return node.end(LONG_SECONDS)

    def check(self, what):
        """The files are sound, and hold a beginning of all logs; a run that goes on from there leaves all."""
        copy = copy_of(self.file, self.room)
        same(is_sound(copy), True, f'{what}: SQLite finds nothing wrong')
        rows = rows_of(copy)
        same(rows, self.rows[:len(rows)], f'{what}: the entries')
        same(self.run(), (0, ''), f'{what}: the next run')
        same((is_whole(self.file), rows_of(self.file)), (True, self.rows), f'{what}: the files after the next run')
        same(is_filled(self.file, PLACES), True, f'{what}: the epochs')

    def end(self):
        same([it.end(LONG_SECONDS) for it in self.others], [(0, '')] * 2, 'the ends of nodes 0 and 2')
