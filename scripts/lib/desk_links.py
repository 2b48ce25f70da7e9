"""Relays between the nodes of a group, all on this host's loopback. A node reaches the others at ports that follow from
its own `--port`; each gets another one, and at the ports where it looks for the others relays listen. They carry the
bytes as they are, and are slow, hold, lose or cut what goes through them as they are asked."""
import random
import socket
import threading
import time

from desk_nodes import HOST, SESSION_PORTS, first_port

CHUNK = 65536


def accept_each(listener, serve):
    while True:
        try:
            stream, _ = listener.accept()
        except OSError:
            # it was closed
            return
        threading.Thread(target=serve, args=(stream,), daemon=True).start()


def listen(port, serve, host=HOST):
    """A listener at a port. Until it is closed, each connection is served by a thread of its own."""
    listener = socket.create_server((host, port))
    threading.Thread(target=accept_each, args=(listener, serve), daemon=True).start()
    return listener


class Connection:
    """One connection of a node, and that of the relay to the other node."""

    def __init__(self, stream, target):
        self.streams = [stream, socket.create_connection(target, timeout=5)]
        for it in self.streams:
            it.setsockopt(socket.IPPROTO_TCP, socket.TCP_NODELAY, 1)
            it.settimeout(None)
        # whether bytes of it were lost: then none after them may come
        self.is_lost = False

    def end(self):
        for it in self.streams:
            try:
                it.shutdown(socket.SHUT_RDWR)
            except OSError:
                # it has ended already
                pass

    def close(self):
        for it in self.streams:
            it.close()


class Link:
    """Carries what one node sends to another. `way` is what becomes of it: it is `open`; `cut`: connections are closed
    as they come; `held`: nothing is read; or `lost`: all is read, and thrown away."""

    def __init__(self, port, target, draw, hosts=(HOST, HOST)):
        self.target, self.draw, self.way, self.delay = (hosts[1], target), draw, 'open', 0
        self.connections, self.lock = set(), threading.Lock()
        self.listener = listen(port, self.serve, hosts[0])

    def connect(self, stream):
        return Connection(stream, self.target)

    def serve(self, stream):
        """Carries one connection to its end."""
        try:
            if self.way == 'cut':
                raise OSError
            connection = self.connect(stream)
        except OSError:
            stream.close()
            return
        with self.lock:
            self.connections.add(connection)
        try:
            self.carry(connection)
        except OSError:
            # one of the two nodes has closed it, or it was cut
            pass
        with self.lock:
            self.connections.discard(connection)
        connection.end()
        connection.close()

    def carry(self, connection):
        source, target = connection.streams
        while data := source.recv(CHUNK):
            while self.way == 'held':
                time.sleep(0.01)
            if self.way == 'lost':
                connection.is_lost = True
                continue
            if connection.is_lost:
                return
            if self.delay:
                time.sleep(self.delay * self.draw.random())
            # in two pieces: where it is cut between them, a frame ends in its middle
            at = self.draw.randrange(len(data))
            target.sendall(data[:at])
            target.sendall(data[at:])

    def cut(self):
        """Ends the connections that are there."""
        with self.lock:
            for connection in self.connections:
                connection.end()

    def turn(self, way):
        self.way = way
        if way == 'cut':
            self.cut()

    def close(self):
        self.listener.close()
        self.turn('cut')


def pass_on(source, target):
    """Carries bytes from one stream to another until one of them ends, and ends both."""
    try:
        while data := source.recv(CHUNK):
            target.sendall(data)
    except OSError:
        # one of them was closed
        pass
    for it in (source, target):
        try:
            it.shutdown(socket.SHUT_RDWR)
        except OSError:
            # it has ended already
            pass


class Door(Link):
    """Carries the lines of a client to the sessions of a node, and the replies back."""

    def carry(self, connection):
        client, node = connection.streams
        back = threading.Thread(target=pass_on, args=(node, client), daemon=True)
        back.start()
        pass_on(client, node)
        back.join()


class KeyedLink(Link):
    """Carries back what a handshake brings."""

    def carry(self, connection):
        threading.Thread(target=pass_on, args=reversed(connection.streams), daemon=True).start()
        super().carry(connection)


class Links:
    """The links of a group, by who sends and who receives, and doors to its sessions at the ports of one group."""

    kind = Link

    def __init__(self, n, seed):
        self.firsts = []
        while len(self.firsts) < n:
            first = first_port()
            if first not in self.firsts:
                self.firsts.append(first)
        self.first = first_port()
        self.doors = [Door(self.first + SESSION_PORTS + node, self.firsts[node] + SESSION_PORTS + node, None)
                      for node in range(n)]
        self.all = {(one, other): self.kind(self.firsts[one] + other, self.firsts[other] + other,
                                            random.Random(f'{seed} {one} {other}'))
                    for one in range(n) for other in range(n) if one != other}

    def of(self, node):
        """Those to a node and from it."""
        return [link for ends, link in self.all.items() if node in ends]

    def close(self):
        for link in [*self.all.values(), *self.doors]:
            link.close()


class KeyedLinks(Links):
    """The same where ports have keys. A hello names the port that is dialled, so a relay stands at the same port of
    another address of loopback: one for each node that dials, and one for clients."""

    def __init__(self, n, seed):
        self.first = first_port()
        self.firsts, self.hosts = [self.first] * n, [f'127.0.1.{node + 1}' for node in range(n)]
        self.doors = [self.link(Door, '127.0.9', node, SESSION_PORTS, None) for node in range(n)]
        self.all = {(one, other): self.link(KeyedLink, f'127.0.{10 + one}', other, 0,
                                            random.Random(f'{seed} {one} {other}'))
                    for one in range(n) for other in range(n) if one != other}

    def link(self, kind, net, node, ports, draw):
        port = self.first + ports + node
        return kind(port, port, draw, (f'{net}.{node + 1}', self.hosts[node]))

    def hosts_for(self, net, node=None):
        """The hosts of the nodes as a client sees them, or a node, which is on its own."""
        return ','.join(self.hosts[it] if it == node else f'{net}.{it + 1}' for it in range(len(self.hosts)))
