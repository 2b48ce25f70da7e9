"""A client of a port whose users hold a key: the handshake, and the records after it, as docs/KEYS.md spells them."""
import hashlib
import hmac
import os
import socket
import struct

SESSION, PEER, CLIENT = 2, 1, 255
RECORD_BYTES = 65_536


class NotProved(OSError):
    """The port closed the connection, or did not show that it holds the key."""


def tag(key, *parts):
    return hmac.new(key, b"".join(parts), hashlib.sha256).digest()


def hello(port, nonce, role=SESSION, sender=CLIENT, to=CLIENT, nodes=0, domain=bytes(32)):
    front = b"desk-key" + bytes([1, role, sender, to, nodes, 0]) + struct.pack(">H", port)
    return front + domain + nonce


def record(key, count, text):
    """The record of a count that carries these bytes."""
    front = struct.pack(">I", len(text)) + text
    return front + tag(key, struct.pack(">Q", count), front)


def read_exactly(stream, count):
    got = b""
    while len(got) < count:
        piece = stream.recv(count - len(got))
        if not piece:
            raise NotProved(f"closed after {len(got)} of {count} bytes")
        got += piece
    return got


class KeyedConnection:
    """A connection after its handshake: lines go out and come back as records. Over a stream that is there, or else
    over a new one. It can stand where a socket is used and read by lines."""

    def __init__(self, port, key, host="127.0.0.1", seconds=10, stream=None, **said):
        self.stream = stream or socket.create_connection((host, port), seconds)
        self.stream.setsockopt(socket.IPPROTO_TCP, socket.TCP_NODELAY, 1)
        first = hello(port, os.urandom(32), **said)
        self.stream.sendall(first)
        challenge = read_exactly(self.stream, 64)
        nonce = challenge[:32]
        if not hmac.compare_digest(challenge[32:], tag(key, b"\1", first, nonce)):
            raise NotProved("the port's proof is not under the key")
        proof = tag(key, b"\2", first, nonce)
        self.stream.sendall(proof)
        # what who stands between heard it say
        self.said = first, proof
        self.out, self.into = tag(key, b"\3", first, nonce), tag(key, b"\4", first, nonce)
        self.sent = self.taken = 0
        self.held = b""

    def send(self, text):
        """Sends bytes as one record."""
        self.stream.sendall(record(self.out, self.sent, text))
        self.sent += 1

    def sendall(self, text):
        """Sends bytes, as many as there are."""
        for at in range(0, len(text), RECORD_BYTES):
            self.send(text[at:at + RECORD_BYTES])

    def take(self):
        """The bytes of the next record."""
        length = read_exactly(self.stream, 4)
        text = read_exactly(self.stream, struct.unpack(">I", length)[0])
        reported = read_exactly(self.stream, 32)
        if not hmac.compare_digest(reported, tag(self.into, struct.pack(">Q", self.taken), length + text)):
            raise NotProved("a record's tag is wrong")
        self.taken += 1
        return text

    def recv(self, count):
        """Some of the bytes that come, so many at most."""
        self.held = self.held or self.take()
        given, self.held = self.held[:count], self.held[count:]
        return given

    def readline(self):
        """The next line with its newline. Nothing where the connection ends before it."""
        try:
            while b"\n" not in self.held:
                self.held += self.take()
        except NotProved:
            return b""
        line, _, self.held = self.held.partition(b"\n")
        return line + b"\n"

    def ask(self, line):
        """Sends a line, and gives the reply line."""
        self.send(line.rstrip(b"\n") + b"\n")
        while b"\n" not in self.held:
            self.held += self.take()
        reply, _, self.held = self.held.partition(b"\n")
        return reply

    def setblocking(self, is_blocking):
        self.stream.setblocking(is_blocking)

    def close(self):
        self.stream.close()
