"""Clients whose commands are timed, each of which goes on with whichever node leads: what scripts share that measure
groups for long."""
import itertools
import json
import threading
import time

from desk_clients import AT
from desk_nodes import Session

NODES = 3
# refusals after which the same line is sent again: another node leads, the reply is late, the node stops
AGAIN = (30, 32, 34, 35)
LIMIT = 900


class Wrong(Exception):
    """What no command may get."""


class Sender:
    """A session with whichever node leads, through all changes of view."""

    def __init__(self, first):
        self.first, self.node, self.session = first, 0, None

    def ask(self, line):
        """The reply that stays to a line."""
        end = time.monotonic() + LIMIT
        while time.monotonic() < end:
            reply = self.ask_node(line)
            refusal = json.loads(reply).get('refusal') if reply else None
            if reply and refusal not in AGAIN:
                return reply
            self.leave(json.loads(reply)['node'] if refusal == 30 else (self.node + 1) % NODES)
        raise Wrong(f'{line} has no answer')

    def ask_node(self, line):
        try:
            self.session = self.session or Session(self.first, self.node, 10)
            return self.session.ask(line)
        except OSError:
            return None

    def leave(self, node):
        if self.session:
            self.session.close()
        self.session, self.node = None, node
        time.sleep(0.01)


class Client(threading.Thread):
    """Opens incidents and clears them, so many or until it is over, and notes when each command began, and how long it
    took."""

    def __init__(self, first, session, count=None):
        super().__init__(daemon=True)
        self.sender, self.session, self.count, self.is_over = Sender(first), session, count, threading.Event()
        self.done, self.wrong = [], None

    def numbers(self):
        """The numbers of its commands, up to the last."""
        for number in itertools.count(1) if self.count is None else range(1, self.count + 1):
            if self.is_over.is_set():
                return
            yield number

    def line(self, number, incident):
        command = {'session': self.session, 'number': number, 'at': AT}
        if incident:
            return json.dumps({**command, 'do': 'clear', 'incident': incident})
        call = f'urn:emergency:uid:callid:s{self.session}n{number}:x.example'
        return json.dumps({**command, 'do': 'open', 'kind': 'fire', 'where': '12 Elm St', 'call': call})

    def run(self):
        incident = None
        try:
            for number in self.numbers():
                began = time.monotonic()
                reply = json.loads(self.sender.ask(self.line(number, incident)))
                self.done.append((began, time.monotonic() - began))
                if 'refusal' in reply:
                    raise Wrong(f'command {number} of session {self.session} got {reply}')
                incident = None if incident else reply['incident']
            self.sender.leave(0)
        except Exception as fault:
            self.wrong = fault
            raise
