"""A stand-in of a node's two ports, whose users hold keys, as docs/KEYS.md spells it; with one planted fault where it
is given one. It shares no code with the desk. A line that opens an incident and a Prepare are done at once, each at the
next place, and a show reports the last. The keys come by the standard input, at whose end it ends:

    python3 scripts/lib/keyed_acceptor.py FIRST_PORT [FAULT]
"""
import hashlib
import hmac
import json
import os
import socket
import struct
import sys
import threading

from keyed_connections import CLIENT, PEER, RECORD_BYTES, SESSION, hello, record, tag

HOST, DOMAIN, NODE, NODES, SESSION_PORTS, SESSIONS, PEERS = '127.0.0.1', 'desk.example', 1, 3, 10, 8, 4
READS, PROOF_SECONDS, PEER_SECONDS, SESSION_SECONDS = 8, 1, 10, 300
PREPARE = 1


class NotAdmitted(Exception):
    """The other end is not admitted, or sent no right record."""


class Port:
    """What a port's users say in a hello, and its key."""

    def __init__(self, number, key, **said):
        self.number, self.key, self.said = number, key, said

    def may_dial(self, sender):
        return sender == CLIENT if self.said['role'] == SESSION else sender < NODES and sender != NODE


class Acceptor:
    """The ports, what was done, and the planted fault."""

    def __init__(self, fault):
        self.fault, self.lock, self.place, self.done = fault, threading.Lock(), 0, set()
        # what a faulty one keeps: nonces, proofs that it sent, keys of records, bytes
        self.nonce, self.open, self.sent, self.keys, self.kept = os.urandom(32), [], [], [], []

    def has(self, *faults):
        return self.fault in faults

    # the handshake

    def receive(self, stream, count):
        got, reads = b'', 0
        while len(got) < count:
            if reads == READS and not self.has('reads_without_end'):
                raise NotAdmitted
            piece = stream.recv(count - len(got))
            if not piece:
                raise NotAdmitted
            got, reads = got + piece, reads + 1
            if count == 32 and self.has('compares_what_came_first'):
                return got
        return got

    def is_for(self, port, first):
        """Whether a hello is for this port."""
        said, ways = dict(port.said), {'port': port.number}
        sender, fields = first[10], {'role': first[9], 'to': first[11], 'nodes': first[12], 'domain': first[16:48]}
        for name, found in fields.items():
            if self.has(f'{name}_is_not_compared'):
                said[name] = found
        if self.has('port_is_not_compared'):
            ways['port'] = struct.unpack('>H', first[14:16])[0]
        wanted = hello(ways['port'], first[48:], sender=sender, **said)
        if self.has('magic_is_not_compared'):
            wanted = first[:8] + wanted[8:]
        if self.has('version_is_not_compared'):
            wanted = first[:8] + first[8:9] + wanted[9:]
        return first == wanted and (port.may_dial(sender) or self.has('anybody_may_dial'))

    def nonce_for(self, first):
        if self.has('nonce_is_always_the_same'):
            return self.nonce
        return first[48:] if self.has('nonce_is_the_other_end_s') else os.urandom(32)

    def is_proof(self, port, first, nonce, proof):
        right = tag(port.key, b'\2', first, nonce)
        if self.has('compares_half_a_proof'):
            return proof[:16] == right[:16]
        if self.has('compares_what_came_first'):
            return proof == right[:len(proof)]
        others = {'takes_its_own_proof': [tag(port.key, b'\1', first, nonce)],
                  'takes_a_proof_that_it_sent': self.sent,
                  'takes_a_proof_of_any_connection': [tag(port.key, b'\2', *it) for it in self.open],
                  'takes_the_empty_key': [tag(bytes(32), b'\2', first, nonce)],
                  'leaves_the_sender_out': [tag(port.key, b'\2', first[:10] + bytes([it]) + first[11:], nonce)
                                            for it in range(NODES)],
                  'takes_zeros': [bytes(32)]}.get(self.fault, [])
        return hmac.compare_digest(proof, right) or proof in others or self.has('takes_any_proof')

    def has_no_proof(self, stream, port, first, nonce):
        return not self.is_proof(port, first, nonce, stream.recv(32, socket.MSG_PEEK))

    def admit(self, stream, port):
        """Admits the other end, and gives the keys of records: from it and to it."""
        stream.settimeout(None if self.has('waits_for_the_silent') else PROOF_SECONDS)
        own = os.urandom(32) if self.has('challenges_before_the_hello') else b''
        stream.sendall(own)
        first = self.receive(stream, 80)
        if not self.is_for(port, first):
            if self.has('tells_why'):
                stream.sendall(b'{"refusal":1}\n')
            raise NotAdmitted
        nonce = own or self.nonce_for(first)
        proof = tag(port.key, b'\1', first, nonce)
        self.open.append((first, nonce))
        self.sent.append(proof)
        stream.sendall(proof if own else nonce + proof)
        if not (self.has('asks_for_no_proof') and self.has_no_proof(stream, port, first, nonce)):
            if not self.is_proof(port, first, nonce, self.receive(stream, 32)):
                raise NotAdmitted
        keys = tag(port.key, b'\3', first, nonce), tag(port.key, b'\4', first, nonce)
        self.keys.append(keys[0])
        return keys

    # records

    def is_right(self, keys, count, front, reported):
        right = lambda key, count: hmac.compare_digest(reported, tag(key, struct.pack('>Q', count), front))
        others = {'takes_a_record_again': [(keys[0], it) for it in range(count)],
                  'takes_a_later_record': [(keys[0], it) for it in range(count, count + 9)],
                  'has_one_key_for_both_directions': [(keys[1], count)],
                  'takes_records_of_any_connection': [(it, count) for it in self.keys]}.get(self.fault, [])
        return right(keys[0], count) or any(right(*it) for it in others) or self.has('looks_at_no_tag')

    def records(self, stream, keys, take):
        """Hands on what each right record carries, to the end of the stream."""
        with stream.makefile('rb') as source:
            count = 0
            while len(length := source.read(4)) == 4:
                carried = struct.unpack('>I', length)[0]
                if carried == 0 and not self.has('takes_a_record_of_nothing'):
                    return
                if carried > RECORD_BYTES and not self.has('takes_any_length'):
                    return
                text = source.read(carried)
                if self.has('gives_on_before_the_tag') and len(text) == carried:
                    take(text)
                reported = source.read(32)
                if len(text) < carried or len(reported) < 32 or not self.is_right(keys, count, length + text, reported):
                    return
                if not self.has('gives_on_before_the_tag'):
                    take(text)
                count += 1

    # what is asked

    def do(self, name):
        with self.lock:
            self.place += name not in self.done
            self.done.add(name)
            return self.place

    def reply(self, line):
        try:
            asked = json.loads(line)
        except ValueError:
            return {'refusal': 1}
        if asked.get('do') == 'open':
            place = self.do((asked['session'], asked['number']))
            return {'number': asked['number'], 'ok': 'opened', 'place': place, 'session': asked['session']}
        return {'ok': 'board', 'place': self.place, 'session': asked.get('session')}

    def session(self, send):
        """What takes a client's bytes, and sends a reply to each line."""
        held = []

        def take(text):
            *lines, rest = (b''.join(held) + text).split(b'\n')
            held[:] = [rest]
            for line in lines:
                send(json.dumps(self.reply(line), separators=(',', ':')).encode() + b'\n')
        return take

    def peer(self, send):
        """What takes a node's bytes."""
        held = []

        def take(text):
            data = b''.join(held) + text
            while len(data) >= 4 and len(data) >= (size := 4 + struct.unpack('>I', data[:4])[0]):
                if data[5] == PREPARE:
                    self.do(data[:size])
                data = data[size:]
            held[:] = [data]
        return take

    # connections

    def serve_admitted(self, stream, port, keys):
        is_session = port.said['role'] == SESSION
        stream.settimeout(SESSION_SECONDS if is_session else PEER_SECONDS)
        counts = iter(range(2 ** 64))
        send = lambda text: stream.sendall(record(keys[1], next(counts), text))
        self.records(stream, keys, self.session(send) if is_session else self.peer(send))

    def serve(self, stream, port):
        if self.has('serves_lines_without_a_handshake') and stream.recv(1, socket.MSG_PEEK) == b'{':
            take = self.session(stream.sendall)
            while text := stream.recv(4096):
                take(text)
        self.serve_admitted(stream, port, self.admit(stream, port))

    def serve_all(self, listener, port):
        """Serves one connection after the other."""
        while True:
            stream, _ = listener.accept()
            try:
                self.serve(stream, port)
            except (OSError, NotAdmitted):
                if self.has('ends_at_a_stranger'):
                    os._exit(1)
                if self.has('keeps_a_place_for_who_left'):
                    threading.Event().wait()
                if self.has('keeps_what_strangers_send'):
                    self.kept.append(b'x' * 1_000_000)
            if self.has('leaves_strangers_open'):
                self.kept.append(stream)
                continue
            stream.close()

    def listen(self, port, places):
        listener = socket.create_server((HOST, port.number))
        for _ in range(places):
            threading.Thread(target=self.serve_all, args=(listener, port), daemon=True).start()


def main():
    first, fault = int(sys.argv[1]), (sys.argv[2:] or [None])[0]
    nodes, clients = (bytes.fromhex(sys.stdin.readline()) for _ in range(2))
    acceptor = Acceptor(fault)
    domain = hashlib.sha256(DOMAIN.encode()).digest()
    acceptor.listen(Port(first + NODE, nodes, role=PEER, to=NODE, nodes=NODES, domain=domain), PEERS)
    acceptor.listen(Port(first + SESSION_PORTS + NODE, clients, role=SESSION), SESSIONS)
    print('ready', flush=True)
    sys.stdin.read()


if __name__ == '__main__':
    main()
