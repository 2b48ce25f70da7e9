"""A group of nodes with the page's server over it, and clients of both: what the scripts share that try the page."""
import contextlib
import itertools
import json
import multiprocessing
import re
import select
import socket
import threading
import time
from http.client import HTTPConnection

from desk_nodes import HOST, Program, Session, ask_once, cluster, first_port, same, serve_group, until

NOW = '"at":"2026-03-01T12:00:00Z"'
PROBE = f'{{"session":98,"number":%d,{NOW},"do":"sign_off","unit":"none"}}'
SHOW = '{"session":99,"do":"show"}'
# what stands before the place in the line of a board, and in no text of it, whose quotes are escaped
PLACE = re.compile(rb'"ok":"list","place":(\d+),"session"')
# a node serves eight sessions, of which the page's server takes at most four
CLIENTS = 4
# what asks for a line again: another node leads, nobody answered in time, the node stops, no memory
AGAIN = (30, 32, 34, 40)
# the most seconds that a client waits for a reply on a busy host
MOST_WAIT = 30
# sessions of clients that have notes replaced without an end
SESSIONS = itertools.count(1000)


def opening(session, number, where, kind='medical'):
    """A command that opens an incident with a call of its own."""
    call = f'urn:emergency:uid:callid:c{session}-{number}:x.example'
    what = f'"do":"open","kind":"{kind}","where":"{where}","call":"{call}"'
    return f'{{"session":{session},"number":{number},{NOW},{what}}}'


def noting(session, number, incident, text):
    """A command that replaces an incident's note."""
    return f'{{"session":{session},"number":{number},{NOW},"do":"note","incident":"{incident}","text":"{text}"}}'


def signing_on(session, number, unit):
    """A command that signs a unit on."""
    return f'{{"session":{session},"number":{number},{NOW},"do":"sign_on","unit":"{unit}"}}'


class Client(threading.Thread):
    """Gives a node lines, one after the other and each a pause after the one before it was due, until all are done or
    it is to end. It keeps the replies and how long each took, in seconds."""

    def __init__(self, first, node, lines, pause=0, over=None):
        super().__init__(daemon=True)
        self.first, self.stream = first, Session(first, node, MOST_WAIT)
        self.lines, self.pause, self.over = lines, pause, over
        self.replies, self.times, self.wrong = [], [], None

    def run(self):
        try:
            began = time.perf_counter()
            for turn, line in enumerate(self.lines):
                if self.over and self.over.is_set():
                    break
                time.sleep(max(0, began + turn * self.pause - time.perf_counter()))
                self.do(line)
        except Exception as fault:
            self.wrong = fault
        self.stream.close()

    def do(self, line):
        began = time.perf_counter()
        reply = self.reply_to(line)
        self.times.append(time.perf_counter() - began)
        same('ok' in reply, True, f'{line}: {reply}')
        self.replies.append(reply)

    def reply_to(self, line):
        """The reply to a line, which is sent again with its number where a node has not answered it for good."""
        for _ in range(100):
            reply = json.loads(self.stream.ask(line) or '{}')
            if reply.get('refusal') not in AGAIN:
                break
            if 'node' in reply:
                self.stream.close()
                self.stream = Session(self.first, reply['node'], MOST_WAIT)
            time.sleep(0.1)
        return reply


def run_clients(clients):
    """Runs clients beside each other, and fails where a line of theirs was not done."""
    for client in clients:
        client.start()
    for client in clients:
        client.join()
    same([client.wrong for client in clients], [None] * len(clients), 'commands')
    return clients


def fill(first, node, count, session=1):
    """Opens so many incidents at a node, which leads, by sessions from this one on, and gives their identifiers."""
    shares = [range(client, count, CLIENTS) for client in range(CLIENTS)]
    clients = [Client(first, node, [opening(session + client, number, f'Long Rd, lot L{at}')
                                    for number, at in enumerate(share, 1)])
               for client, share in enumerate(shares)]
    return [reply['incident'] for client in run_clients(clients) for reply in client.replies]


def notes(incidents, words='note'):
    """Commands of a session of its own, each of which replaces the note of an incident, without an end."""
    session = next(SESSIONS)
    return (noting(session, number, incidents[number % len(incidents)], f'{words} {number}')
            for number in itertools.count(1))


def begin_commands(group, node, incidents, rate, clients):
    """So many commands a second by so many clients of a node, until the event that it gives."""
    over = threading.Event()
    running = [Client(group.first, node, notes(incidents), clients / rate, over) for _ in range(clients)]
    for client in running:
        client.start()
    return running, over


def end_commands(running, over):
    """Has clients end, each line of which was done. It gives the last place."""
    over.set()
    for client in running:
        client.join()
    same([client.wrong for client in running], [None] * len(running), 'commands')
    return max(client.replies[-1]['place'] for client in running)


def posted(listen, line):
    """The status and the text of the answer to a line that is sent as the page sends it."""
    stream = HTTPConnection(HOST, listen, timeout=60)
    try:
        heads = {'Origin': f'http://{HOST}:{listen}', 'Content-Type': 'application/json'}
        stream.request('POST', '/command', line + '\n', heads)
        answer = stream.getresponse()
        return answer.status, answer.read().decode()
    finally:
        stream.close()


class PagedGroup:
    """Three nodes over files in a folder, with these words, and the page's server over them, where it is wanted at
    once."""

    def __init__(self, room, serves_page=True, words=()):
        self.room, self.first, self.probes, self.server, self.words = room, first_port(), 0, None, words
        self.nodes = self.start_nodes(room)
        for node in self.nodes:
            same(node.is_ready(), True, 'ready')
        self.listen = self.first + 19
        if serves_page:
            self.start_page()

    def start_nodes(self, room):
        return serve_group(room, self.first, self.words)

    def start_page(self, *words, more=()):
        self.server = Program('page', '--port', self.first, '--nodes', 3, '--listen', self.listen, *words, more=more)
        same(self.server.is_ready(), True, 'ready')

    def end_page(self):
        if self.server:
            same(self.server.end(), (0, ''), 'end')
        self.server = None

    def find_primary(self):
        """The node that does not name another, in a list, where there is one."""
        self.reported = []
        for node in range(3):
            self.probes += 1
            self.reported.append(ask_once(self.first, node, PROBE % self.probes, 2))
            if self.reported[-1] and json.loads(self.reported[-1]).get('refusal') not in (30, 32, 34):
                return [node]
        return []

    def primary(self):
        found = until(20, self.find_primary)
        same(len(found), 1, f'nodes that lead, of those that tell {self.reported}')
        return found[0]

    def reply_to(self, line):
        """The reply of the node that leads."""
        return json.loads(ask_once(self.first, self.primary(), line))

    def place(self):
        """The greatest place that a node reports."""
        replies = [ask_once(self.first, node, SHOW) for node in range(3)]
        return max(json.loads(reply)['place'] for reply in replies if reply)

    def end(self, seconds=20):
        """Ends all, each node in so many seconds at most."""
        self.end_page()
        for node in self.nodes:
            same(node.end(seconds), (0, ''), 'end')


class PagedCluster(PagedGroup):
    """The same in one process, whose nodes keep no files: what commits is bound by no disk."""

    def start_nodes(self, room):
        return [cluster(self.first)]


class Poller(threading.Thread):
    """A browser that asks for the next board as soon as it has one. It keeps the last and the places of all that it was
    given, how many answers it got, and how long the longest took, in seconds."""

    def __init__(self, listen, over):
        super().__init__(daemon=True)
        self.stream, self.over, self.server = HTTPConnection(HOST, listen, timeout=30), over, 0
        self.places, self.board, self.answers, self.longest, self.fault = [], None, 0, 0, None

    def run(self):
        try:
            while not self.over.is_set():
                began = time.monotonic()
                self.ask()
                self.longest = max(self.longest, time.monotonic() - began)
                self.answers += 1
        except Exception as fault:
            self.fault = fault
        self.stream.close()

    def ask(self):
        after = self.places[-1] if self.places else -1
        answer = self.answer_to(f'/board?after={max(after, 0)}&of={self.server}')
        body = answer.read()
        self.server = answer.getheader('desk-of')
        if answer.status == 204:
            return
        same(answer.status, 200, 'status')
        self.board = json.loads(body)
        place = self.board['place']
        same((self.board['ok'], place > after), ('list', True), f'a board at place {place} after one at {after}')
        self.places.append(place)

    def answer_to(self, path):
        """Over another connection where the server had closed this one between two requests, as a browser does."""
        try:
            self.stream.request('GET', path)
            return self.stream.getresponse()
        except (ConnectionResetError, BrokenPipeError):
            self.stream.close()
            self.stream.request('GET', path)
            return self.stream.getresponse()

    def has(self, place):
        return self.fault or self.places and self.places[-1] == place


class LightPoller:
    """The same at small cost, for one thread that has many, since what browsers cost is no part of what is measured. It
    keeps the places of the boards alone."""

    STATUS = re.compile(rb'HTTP/1\.1 (\d+) ')
    LENGTH = re.compile(rb'\r\ncontent-length: (\d+)\r\n', re.IGNORECASE)
    RUN = re.compile(rb'\r\ndesk-of: (\d+)\r\n', re.IGNORECASE)
    END, MARK = b'\r\n\r\n', b'"ok":"list","place":'

    def __init__(self, listen):
        self.listen, self.server, self.places = listen, 0, []
        self.room = memoryview(bytearray(1 << 20))
        self.connect()

    def connect(self):
        self.stream = socket.create_connection((HOST, self.listen), timeout=30)
        self.ask()

    def fileno(self):
        return self.stream.fileno()

    def ask(self):
        self.count, self.whole = 0, None
        path = f'/board?after={self.places[-1] if self.places else 0}&of={self.server}'
        # a connection that the server had closed is found where it is read
        with contextlib.suppress(ConnectionError):
            self.stream.sendall(f'GET {path} HTTP/1.1\r\nHost: {HOST}:{self.listen}\r\n\r\n'.encode())

    def read(self):
        """Takes what has come of an answer, and asks again where that is whole, or over another connection where the
        server had closed this one between two requests."""
        try:
            came = self.stream.recv_into(self.room[self.count:])
        except ConnectionError:
            came = 0
        if came == 0:
            same(self.count, 0, 'bytes of an answer that ends')
            self.stream.close()
            self.connect()
            return
        self.count += came
        if self.whole is None:
            self.begin(bytes(self.room[:min(self.count, 4096)]))
        if self.count == self.whole:
            self.take(bytes(self.room[:self.count]))
            self.ask()

    def begin(self, text):
        """Reads the head of an answer, once it is there."""
        end = text.find(self.END) + len(self.END)
        if end >= len(self.END):
            length = self.LENGTH.search(text, 0, end)
            self.server = int(self.RUN.search(text, 0, end)[1])
            self.whole = end + (int(length[1]) if length else 0)

    def take(self, text):
        status = int(self.STATUS.match(text)[1])
        same(status in (200, 204), True, f'status {status}')
        if status == 200:
            place = int(PLACE.match(text, text.rfind(self.MARK))[1])
            after = self.places[-1] if self.places else -1
            same(place > after, True, f'a board at place {place} after one at {after}')
            self.places.append(place)


class Visitor(Poller):
    """A browser that asks for the board as it is again and again, and has an answer at once."""

    def ask(self):
        time.sleep(0.01)
        answer = self.answer_to('/board?after=0&of=0')
        body = answer.read()
        same(answer.status, 200, 'status')
        self.places.append(int(PLACE.search(body)[1]))


@contextlib.contextmanager
def visitors(listen, count, longest):
    """So many browsers that are served while something is done, each answer within so many seconds."""
    over = threading.Event()
    found = [Visitor(listen, over) for _ in range(count)]
    for visitor in found:
        visitor.start()
    try:
        yield found
    finally:
        end_pollers(found, over)
    waited = max(visitor.longest for visitor in found)
    same(waited < longest, True, f'a browser waited {waited:.1f} s')


def are_served(found, seconds):
    """Whether each of these browsers gets another answer in time."""
    before = [visitor.answers for visitor in found]
    return until(seconds, lambda: all(it.fault or it.answers > had for it, had in zip(found, before)), 0.01)


def start_pollers(listen, count, over):
    """So many browsers, each of which has a board."""
    pollers = [Poller(listen, over) for _ in range(count)]
    for poller in pollers:
        poller.start()
    same(bool(until(30, lambda: all(poller.fault or poller.places for poller in pollers))), True, 'first boards')
    return pollers


def end_pollers(pollers, over):
    """Has browsers end, each of which had no fault."""
    over.set()
    for poller in pollers:
        poller.join()
    same([poller.fault for poller in pollers if poller.fault], [], 'faults of browsers')


def follow(listen, count, pipe):
    """Browsers that follow until they are given a place, and have its board: how many boards each got."""
    browsers, last, is_reported = [LightPoller(listen) for _ in range(count)], None, False
    while last is None or any(browser.places[-1] < last for browser in browsers):
        if not is_reported and all(browser.places for browser in browsers):
            is_reported = True
            pipe.send('ready')
        for found in select.select([pipe, *browsers], [], [])[0]:
            if found is pipe:
                last = pipe.recv()
            else:
                found.read()
    pipe.send([len(browser.places) for browser in browsers])


class Followers:
    """Browsers that follow, in a process of their own."""

    def __init__(self, listen, count):
        self.pipe, end = multiprocessing.Pipe()
        self.process = multiprocessing.Process(target=follow, args=(listen, count, end), daemon=True)
        self.process.start()
        end.close()
        same(self.pipe.poll(30), True, 'first boards')
        same(self.pipe.recv(), 'ready', 'browsers')
        self.began = time.monotonic()

    def end(self, place):
        """Ends them once they have the board of a place: how many boards each got a second."""
        seconds = time.monotonic() - self.began
        self.pipe.send(place)
        same(self.pipe.poll(20), True, 'the last board')
        boards = self.pipe.recv()
        self.process.join()
        return [count / seconds for count in boards]


class IdleConnections(threading.Thread):
    """Connections that ask nothing, all begun at once. Each is read until the server closes it, or the time is over: it
    keeps what each was sent, and after how many seconds it was closed."""

    def __init__(self, listen, count, seconds):
        super().__init__(daemon=True)
        self.began, self.seconds = time.monotonic(), seconds
        self.sent, self.closed = {}, {}
        for _ in range(count):
            stream = socket.socket()
            stream.setblocking(False)
            stream.connect_ex((HOST, listen))
            self.sent[stream] = b''
        self.start()

    def run(self):
        while len(self.closed) < len(self.sent) and time.monotonic() < self.began + self.seconds:
            for stream in select.select(self.sent.keys() - self.closed.keys(), [], [], 0.5)[0]:
                self.read(stream)
        for stream in self.sent:
            stream.close()

    def read(self, stream):
        try:
            came = stream.recv(4096)
        except ConnectionError:
            came = b''
        self.sent[stream] += came
        if not came:
            self.closed[stream] = time.monotonic() - self.began
