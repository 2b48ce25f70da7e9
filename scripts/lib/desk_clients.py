"""Clients of a group of nodes, which send generated documents, each until it is answered, and keep all that they were
answered: what the scripts share that put nodes to faults."""
import json
import random
import socket
import threading
import time

from command_bytes import STATUSES
from desk_nodes import DOMAIN, HOST, Program, Session, ask_once, file_of

AT, SECONDS = '2026-03-01T12:00:00Z', 1772366400
VERBS = ['open'] * 4 + ['add_call'] * 3 + ['link', 'unlink', 'merge', 'split', 'clear', 'reopen', 'note'] + \
    ['sign_on'] * 2 + ['sign_off'] + ['assign'] * 4 + ['status'] * 4 + ['release'] * 2 + \
    ['stand_by'] * 3 + ['stand_down'] + ['show'] * 5 + ['list']
# what asks for a part of the board, and has no number
SHOWING = ('show', 'list')
# the client may send the command again: another node leads, nobody answered in time, or the node stops
AGAIN = {30, 32, 34}
# what a client that shares its session with another gets beside: its number is too small, or its reply has gone
STALE, SUPERSEDED = 31, 35
SHOW = '{"session":99,"do":"show"}'


def line_of(document):
    return json.dumps(document, separators=(',', ':'))


class Drawer:
    """Draws documents about a few incidents, calls and units, so that they meet."""

    def __init__(self, draw, session):
        self.draw, self.session, self.number = draw, session, 0

    def incident(self):
        if self.draw.random() < 0.2:
            return f'urn:nena:uid:incidentid:S{self.draw.randrange(30)}:other.example'
        return f'urn:emergency:uid:incidentid:{self.draw.randrange(1, 200):012}:{DOMAIN}'

    def call(self):
        return f'urn:emergency:uid:callid:c{self.draw.randrange(300)}:x.example'

    def members(self, verb):
        text = self.draw.choice(['two persons inside', 'the door is shut', 'smoke'])
        incident, unit = {'incident': self.incident()}, {'unit': f'E{self.draw.randrange(12)}'}
        where = {'kind': self.draw.choice(['fire', 'medical']), 'where': f'{self.draw.randrange(99)} Elm St'}
        return {
            'open': {**where, **({'call': self.call()} if self.draw.random() < 0.7 else {}),
                     **({'incident': f'urn:nena:uid:incidentid:S{self.draw.randrange(30)}:other.example'}
                        if self.draw.random() < 0.2 else {})},
            'add_call': {**incident, 'call': self.call()},
            'link': {**incident, 'other': self.incident()}, 'unlink': {**incident, 'other': self.incident()},
            'merge': {**incident, 'into': self.incident()}, 'split': {**incident, 'call': self.call(), **where},
            'clear': incident, 'reopen': incident, 'note': {**incident, 'text': text},
            'sign_on': unit, 'sign_off': unit, 'assign': {**unit, **incident},
            'status': {**unit, 'status': self.draw.choice(STATUSES)}, 'release': unit,
            'stand_by': {**unit, **incident}, 'stand_down': unit,
            'show': self.draw.choice([{}, incident, unit]),
            'list': {**self.draw.choice([{}, {'state': self.draw.choice(['open', 'cleared', 'merged'])}]),
                     **self.draw.choice([{}, {'from': self.draw.randrange(1, 400)}])},
        }[verb]

    def command(self, verb, members):
        """A command with the next number of the session, or with one after that."""
        self.number += self.draw.choice([1, 1, 1, 5])
        return {'session': self.session, 'number': self.number, 'at': AT, 'do': verb, **members}

    def show(self, members, verb='show'):
        return {'session': self.session, 'do': verb, **members}

    def document(self):
        verb = self.draw.choice(VERBS)
        members = self.members(verb)
        return self.show(members, verb) if verb in SHOWING else self.command(verb, members)


class Group:
    """Nodes whose files are in a folder, and what clients want to know of them: where each is reached (`firsts`), how
    long to wait after an answer, who answered last, whether they are to end, and whether all is over."""

    def __init__(self, room, firsts, seed, pause):
        self.room, self.firsts, self.n, self.seed, self.pause, self.leader = room, firsts, len(firsts), seed, pause, 0
        # the first port of the group for a client that follows
        self.first = firsts[0]
        # where each node listens, the key of its ports where they have one, and what a client that follows gets then
        self.hosts, self.key, self.follow_words = [HOST] * self.n, None, []
        self.is_over, self.is_cut = threading.Event(), threading.Event()

    def file(self, node):
        return file_of(self.room, node)

    def board(self, node):
        return ask_once(self.firsts[node], node, SHOW, **self.where(node))

    def where(self, node):
        return {'host': self.hosts[node], 'key': self.key}

    def boards(self):
        return {self.board(node) for node in range(self.n)}


class Client(threading.Thread):
    """Sends documents, one after the other, each until it is answered."""

    # whether another client uses the numbers of its session too
    shares = False
    # the refusals after which it sends a line again
    again_after = AGAIN
    # how many of its commands it sends once more after they were answered
    retries = 0.05

    def __init__(self, group, name, session):
        super().__init__(daemon=True)
        self.group, self.drawer = group, Drawer(random.Random(f'{group.seed} {name}'), session)
        self.node, self.stream = session % group.n, None
        # the documents that were sent, and what was answered to commands and to shows
        self.sent, self.commands, self.shows = [], [], []
        self.again, self.wrong = 0, []
        # when commands were answered, and how often one that was answered already got the same reply
        self.times, self.alike = [], 0
        self.chance = random.Random(f'retries {group.seed} {name}')
        # the place that the node showed last, over this connection
        self.place = 0

    def connect(self, kind=Session):
        return kind(self.group.firsts[self.node], self.node, 3, **self.group.where(self.node))

    def ask(self, line):
        """The reply of the node, or nothing; then the next line goes over a new connection."""
        try:
            if self.stream is None:
                self.stream = self.connect()
            reply = self.stream.ask(line)
        except OSError:
            reply = None
        if reply is None:
            self.leave()
        return reply

    def leave(self):
        if self.stream is not None:
            self.stream.close()
        self.stream, self.place = None, 0

    def go_to(self, node):
        if node != self.node:
            self.leave()
        self.node = node

    def answer_to(self, document):
        """The answer that stays; nothing where the run ended before it."""
        line = line_of(document)
        while True:
            reply = self.ask(line)
            members = {} if reply is None else json.loads(reply)
            if reply is not None and members.get('refusal') not in self.again_after:
                return reply
            self.again += 1
            if members.get('refusal') == 30:
                self.go_to(members['node'])
            else:
                self.go_to((self.node + 1) % self.group.n)
            time.sleep(0.02)
            if self.group.is_cut.is_set():
                return None

    def do(self, command):
        """Sends a command until it is answered, and gives the answer, or nothing."""
        self.sent.append(command)
        reply = self.answer_to(command)
        if reply is not None:
            self.commands.append((command['number'], reply))
            self.times.append(time.monotonic())
            self.group.leader = self.node
            self.place = max(self.place, json.loads(reply).get('place', 0))
        return reply

    def retry(self, command, reply):
        """Sends a command again that was answered, to any node at first: the reply is the same."""
        if 'place' not in json.loads(reply) or self.shares or self.chance.random() >= self.retries:
            return
        self.go_to(self.chance.randrange(self.group.n))
        reported = self.answer_to(command)
        if reported == reply:
            self.alike += 1
            self.place = max(self.place, json.loads(reply)['place'])
        elif reported is not None:
            self.wrong.append(f'{reported} to {command} once more, and before {reply}')

    def note_show(self, show, reply):
        """Keeps the reply to a show. It does not go back before what was shown on the same connection."""
        place = json.loads(reply).get('place', -1)
        if place < self.place:
            self.wrong.append(f'{reply} to {show}, after place {self.place}')
        else:
            self.place = place
            self.shows.append((show, reply))

    def work(self):
        """Does one thing, and says whether there is more to do."""
        document = self.drawer.document()
        if document['do'] not in SHOWING:
            reply = self.do(document)
            if reply is not None:
                self.retry(document, reply)
            return reply is not None
        reply = self.answer_to(document)
        if reply is not None:
            self.note_show(document, reply)
        return reply is not None

    def go(self):
        while not self.group.is_over.wait(self.group.pause) and self.work():
            pass

    def run(self):
        try:
            self.go()
        except Exception as fault:
            self.wrong.append(f'session {self.drawer.session}: {fault!r}')
        self.leave()


class Twin(Client):
    """One of two that use the same session at once, each with numbers of its own counter."""

    shares = True

    def work(self):
        goes_on = super().work()
        reported = json.loads(self.commands[-1][1]) if self.commands else {}
        if reported.get('refusal') == STALE and self.drawer.draw.random() < 0.8:
            self.drawer.number = max(self.drawer.number, reported['latest'])
        return goes_on


class FollowingClient(Client):
    """Sends its lines by `desk send --nodes N`, which follows the primary until each has its final reply."""

    program = None

    def start_program(self):
        words = ['send', '--port', self.group.first, '--nodes', self.group.n, '--seconds', 5]
        return Program(*words, *self.group.follow_words)

    def ask_program(self, line):
        """The reply that is printed, or nothing where no node answered in time; then the program has ended."""
        self.program = self.program or self.start_program()
        try:
            self.program.run.stdin.write(line.encode() + b'\n')
            self.program.run.stdin.flush()
            reply = self.program.run.stdout.readline()
        except OSError:
            reply = b''
        if reply.endswith(b'\n'):
            return reply[:-1].decode()
        self.leave()
        return None

    def leave(self):
        if self.program is not None:
            self.program.kill()
        self.program = None

    def answer_to(self, document):
        # whichever node answers: so it does not learn who leads, and a show may go back
        self.node, self.place = self.group.leader, 0
        while not self.group.is_cut.is_set():
            reply = self.ask_program(line_of(document))
            if reply is not None:
                return reply
            self.again += 1
        return None


class FollowingTwin(FollowingClient, Twin):
    """One of two that use the same session at once, which follows the primary."""


class SlowSession(Session):
    """A session whose replies are read with pauses: the first bytes one at a time, what a list has more in pieces."""

    ONE_BY_ONE, PIECE = 400, 4096

    def ask(self, line):
        self.stream.sendall(line.encode() + b'\n')
        reply = b''
        while not reply.endswith(b'\n'):
            time.sleep(0.002)
            piece = self.stream.recv(1 if len(reply) < self.ONE_BY_ONE else self.PIECE)
            if not piece:
                return None
            reply += piece
        return reply[:-1].decode()


class SlowClient(Client):
    def connect(self, kind=SlowSession):
        return super().connect(kind)


class NarrowSession(Session):
    """A session that takes few bytes before they are read, so that the node has to wait."""

    def connect(self, address, seconds):
        stream = socket.socket()
        stream.setsockopt(socket.SOL_SOCKET, socket.SO_RCVBUF, 4096)
        stream.settimeout(seconds)
        stream.connect(address)
        return stream


class StallingClient(Client):
    """Asks for a long reply again and again without reading one for seconds, then reads all."""

    # more bytes of replies than the host keeps for a connection
    BURST = 1500

    def connect(self, kind=NarrowSession):
        return super().connect(kind)

    def long_incident(self):
        """Opens an incident whose show has 2,400 bytes, and gives its identifier, or nothing."""
        opened = self.do(self.drawer.command('open', {'kind': '\x01' * 32, 'where': '\x02' * 128}))
        incident = json.loads(opened or '{}').get('incident')
        if incident and self.do(self.drawer.command('note', {'incident': incident, 'text': '\x03' * 200})):
            return incident
        return None

    def burst(self, show):
        """Sends the show many times, stalls, and notes the replies as far as they come."""
        if self.stream is None:
            self.stream = self.connect()
        self.stream.stream.sendall((line_of(show) + '\n').encode() * self.BURST)
        self.group.is_over.wait(self.drawer.draw.choice([1, 2, 3]))
        for _ in range(self.BURST):
            reply = self.stream.lines.readline()
            if not reply.endswith(b'\n'):
                raise OSError
            self.note_show(show, reply[:-1].decode())

    def go(self):
        incident = self.long_incident()
        while incident is not None and not self.group.is_over.wait(self.group.seconds / 8):
            try:
                self.burst(self.drawer.show({'incident': incident}))
            except OSError:
                self.leave()
                self.go_to(self.drawer.draw.randrange(self.group.n))


# so many open incidents at once, and so long they send a command at most
CLIENTS, LONG_SECONDS = 8, 120


class Opener(Client):
    """Opens so many incidents at sites of its own, one after the other, at node 0 first."""

    def __init__(self, group, session, count):
        super().__init__(group, session, session)
        self.count, self.node = count, 0

    def go(self):
        for number in range(self.count):
            where = {'kind': 'fire', 'where': f'{self.drawer.session}-{number} Elm St'}
            self.do(self.drawer.command('open', where))


def open_at_once(group, count):
    """Has clients open so many incidents each, until all are answered or it takes too long, and gives the clients."""
    clients = [Opener(group, session, count) for session in range(1, CLIENTS + 1)]
    timer = threading.Timer(LONG_SECONDS, group.is_cut.set)
    timer.daemon = True
    timer.start()
    for client in clients:
        client.start()
    for client in clients:
        client.join()
    timer.cancel()
    return clients
