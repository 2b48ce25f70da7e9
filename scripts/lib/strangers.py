"""Attacks on a port whose users hold a key, by who does not hold it, or stands between two who do. What a holder would
send is made with the key; it stands for what a stranger might have heard, or might come by through a fault."""
import hashlib
import os
import socket
import struct
import threading
import time

from keyed_connections import CLIENT, PEER, RECORD_BYTES, SESSION, KeyedConnection, NotProved, hello, record, tag

CHALLENGE = 64
# so much a stranger sends of what has no end
FLOOD_BYTES = 96_000_000
# a message may have eight reads of at most a second; who is slow sends a byte each half second
MESSAGE_SECONDS, SLOW_SECONDS = 8, 0.5


def digest(domain):
    """What a hello says of a domain."""
    return hashlib.sha256(domain.encode()).digest()


class Found(AssertionError):
    """The port did for a stranger what it does for holders alone."""


class Stranger:
    """A connection, and what it heard."""

    def __init__(self, door):
        self.door, self.heard = door, b''
        self.stream = socket.create_connection((door.host, door.port), 5)
        self.stream.setsockopt(socket.IPPROTO_TCP, socket.TCP_NODELAY, 1)

    def say(self, data):
        """Sends bytes, as many as the port takes."""
        self.stream.settimeout(self.door.patience)
        try:
            self.stream.sendall(data)
        except OSError:
            # it was closed
            pass

    def leave_off(self):
        """Tells the port that nothing more comes."""
        try:
            self.stream.shutdown(socket.SHUT_WR)
        except OSError:
            # it was closed
            pass

    def hear(self, count, seconds=None):
        """What was heard once it is so much, or the port closed the connection. It says whether it did."""
        end = time.monotonic() + (seconds or self.door.patience)
        while len(self.heard) < count and (left := end - time.monotonic()) > 0:
            self.stream.settimeout(left)
            try:
                piece = self.stream.recv(min(65536, count - len(self.heard)))
            except TimeoutError:
                break
            except OSError:
                return True
            if not piece:
                return True
            self.heard += piece
        return False

    def challenge(self):
        """The challenge, where one comes; no nonce of it came before."""
        self.hear(CHALLENGE)
        if len(self.heard) == CHALLENGE:
            self.door.note(self.heard[:32])
        return self.heard

    def must_end(self, hears=0, seconds=None):
        """It was closed, and heard so much at most."""
        is_closed = self.hear(hears + 1, seconds)
        self.stream.close()
        if len(self.heard) > hears:
            raise Found(f'a stranger heard {self.heard[:200]!r}')
        if not is_closed:
            raise Found('the connection of a stranger is not closed')


class Door:
    """A port, its key, and what holders say there: `said` in a hello, `harmless` and `forged` bytes after it. What is
    forged is seen on the board, if it is taken. `patience` is how long a close may take."""

    def __init__(self, port, key, harmless, forged, patience, host='127.0.0.1', **said):
        self.port, self.key, self.harmless, self.forged, self.said = port, key, harmless, forged, said
        self.host, self.patience, self.nonces = host, patience, set()

    @property
    def is_session(self):
        return self.said['role'] == SESSION

    def note(self, nonce):
        if nonce in self.nonces:
            raise Found('a nonce came twice')
        self.nonces.add(nonce)

    def hello(self, nonce=None, **other):
        said = {'port': self.port, **self.said, **other}
        return hello(said.pop('port'), nonce or os.urandom(32), **said)

    def proof(self, first, nonce, key=None):
        return tag(key or self.key, b'\2', first, nonce)

    def records(self, first, nonce, key=None):
        """Two records of a holder after a handshake."""
        out = tag(key or self.key, b'\3', first, nonce)
        return record(out, 0, self.forged()) + record(out, 1, self.harmless())

    def holder(self):
        return KeyedConnection(self.port, self.key, self.host, **self.said)


def dial(door, first, proof_of, key=None):
    """Says a hello, and after the challenge this proof, alone and with records of a holder. It is not let in, and
    heard the challenge at most."""
    for is_alone in (True, False):
        stranger = Stranger(door)
        stranger.say(first)
        got = stranger.challenge()
        if len(got) == CHALLENGE:
            stranger.say(proof_of(got) + (b'' if is_alone else door.records(first, got[:32], key)))
        stranger.must_end(CHALLENGE)


def refused_hello(door, **other):
    """A hello that is not for this port is answered by no byte, though its proof would be right."""
    stranger = Stranger(door)
    stranger.say(door.hello(**other))
    stranger.must_end()


# without a handshake

def no_handshake(door):
    for said in (door.forged(), b'POST / HTTP/1.1\r\nHost: desk\r\n\r\n' + door.forged(), os.urandom(200),
                 record(bytes(32), 0, door.forged())):
        stranger = Stranger(door)
        stranger.say(said)
        stranger.must_end()


def half_a_hello(door):
    for count in (0, 1, 40, 79):
        stranger = Stranger(door)
        stranger.say(door.hello()[:count])
        stranger.leave_off()
        stranger.must_end()


def flood(door):
    """Bytes without end, at once."""
    stranger = Stranger(door)
    stranger.say(os.urandom(1_000_000) * (FLOOD_BYTES // 1_000_000))
    stranger.must_end()


def other_bytes_of_a_hello(door):
    """Each byte of a hello but those of the nonce, with one bit turned."""
    for at in range(48):
        for bit in (1, 128):
            first = bytearray(door.hello())
            first[at] ^= bit
            if at != 10 or door.is_session:
                stranger = Stranger(door)
                stranger.say(bytes(first))
                stranger.must_end()


# what was meant for another endpoint

def another_port(door):
    for port in (door.port + 1, door.port - 10, 0):
        refused_hello(door, port=port)


def another_role(door):
    refused_hello(door, role=PEER if door.is_session else SESSION)
    refused_hello(door, role=0)
    if door.is_session:
        refused_hello(door, role=PEER, sender=0, to=1, nodes=3)


def another_node(door):
    for to in {0, 1, 2, CLIENT} - {door.said.get('to', CLIENT)}:
        refused_hello(door, to=to)


def another_desk(door):
    refused_hello(door, domain=os.urandom(32))
    for nodes in {0, 3, 5} - {door.said.get('nodes', 0)}:
        refused_hello(door, nodes=nodes)


def another_sender(door):
    for sender in (0, 1) if door.is_session else (door.said['to'], 3, CLIENT):
        refused_hello(door, sender=sender)


def another_sender_on_the_way(door):
    """Who stands between changes who dials, and hands on the proof that was meant for the other hello."""
    first = door.hello()
    changed = first[:10] + bytes([door.other_sender]) + first[11:]
    dial(door, changed, lambda got: door.proof(first, got[:32]))


# proofs

def another_key(door):
    for key in (os.urandom(32), *door.other_keys):
        dial(door, first := door.hello(), lambda got: door.proof(first, got[:32], key), key)


def empty_key(door):
    dial(door, first := door.hello(), lambda got: door.proof(first, got[:32], bytes(32)), bytes(32))


def half_a_proof(door):
    dial(door, first := door.hello(), lambda got: door.proof(first, got[:32])[:16] + bytes(16))


def first_bytes_of_a_proof(door):
    """A proof that is cut, and the records after it."""
    for count in (1, 16, 31):
        stranger = Stranger(door)
        stranger.say(first := door.hello())
        nonce = stranger.challenge()[:32]
        stranger.say(door.proof(first, nonce)[:count])
        time.sleep(0.1)
        stranger.say(door.records(first, nonce))
        stranger.must_end(CHALLENGE)


def empty_proof(door):
    dial(door, door.hello(), lambda got: b'')
    dial(door, door.hello(), lambda got: bytes(32))
    stranger = Stranger(door)
    stranger.say(door.hello())
    stranger.challenge()
    stranger.leave_off()
    stranger.must_end(CHALLENGE)


def bit_of_a_proof(door):
    for at in range(32):
        first, turn = door.hello(), bytes(at) + bytes([1 << at % 8]) + bytes(31 - at)
        dial(door, first, lambda got: bytes(a ^ b for a, b in zip(door.proof(first, got[:32]), turn)))


def bit_of_a_nonce(door):
    """Who stands between turns a bit of the hello's nonce, and hands on the proof that was meant for it."""
    for at in range(48, 80):
        first = door.hello()
        dial(door, first[:at] + bytes([first[at] ^ 4]) + first[at + 1:], lambda got: door.proof(first, got[:32]))


def reflection(door):
    """The port's own proof, and its whole challenge, are sent back."""
    dial(door, door.hello(), lambda got: got[32:])
    dial(door, door.hello(), lambda got: got)


def second_connection(door):
    """Two connections with one hello: each is sent the proof that the port made for the other."""
    first = door.hello()
    both = [Stranger(door), Stranger(door)]
    for it in both:
        it.say(first)
    got = [it.challenge() for it in both]
    for it, own, other in zip(both, got, reversed(got)):
        it.say(other[32:] + door.records(first, own[:32]))
    for it in both:
        it.must_end(CHALLENGE)


def proof_of_a_second_connection(door):
    """A holder proves itself on one connection, and its proof is carried to another one."""
    other, first = Stranger(door), door.hello()
    other.say(first)
    nonce = other.challenge()[:32]
    dial(door, first, lambda got: door.proof(first, nonce))
    other.leave_off()
    other.must_end(CHALLENGE)


def replay(door):
    """All that a holder sent is sent once more, in one piece and after the challenge."""
    holder = door.holder()
    first, proof = holder.said
    rest = record(holder.out, 0, door.forged()) + record(holder.out, 1, door.forged())
    holder.close()
    for waits in (False, True):
        stranger = Stranger(door)
        stranger.say(first if waits else first + proof + rest)
        stranger.challenge()
        stranger.say(proof + rest)
        stranger.must_end(CHALLENGE)


def repeated_nonce(door):
    """A nonce that the stranger chose, again and again: the port's are its own."""
    own = os.urandom(32)
    for _ in range(20):
        stranger = Stranger(door)
        stranger.say(first := door.hello(own))
        nonce = stranger.challenge()[:32]
        stranger.say(os.urandom(32))
        stranger.must_end(CHALLENGE)
        if nonce in first:
            raise Found('the port takes the nonce of the other end')


# records

def behind(door, said, replies=0):
    """Who stands between sends this behind a holder's handshake. The connection ends, and no more replies came."""
    holder = door.holder()
    stream = holder.stream
    stream.settimeout(door.patience)
    try:
        for piece in said(holder):
            stream.sendall(piece)
    except OSError:
        # it was closed
        pass
    try:
        while holder.take():
            if holder.taken > replies:
                raise Found('there is a reply after a wrong record')
    except TimeoutError as fault:
        raise Found('a connection with a wrong record is not closed') from fault
    except (NotProved, OSError):
        # it was closed
        pass
    finally:
        holder.close()


def harmless(door, holder, count):
    return record(holder.out, count, door.harmless())


def forged(door, holder, count):
    return record(holder.out, count, door.forged())


def bit_of_a_record(door):
    for at in (*range(4), 4, 9, -33, -32, -17, -1):
        def turned(holder):
            own = bytearray(forged(door, holder, 0))
            own[at] ^= 1 << (at % 8)
            yield bytes(own) + harmless(door, holder, 1)
            holder.stream.shutdown(socket.SHUT_WR)
        behind(door, turned)


def bit_of_a_tag(door):
    def turned(holder):
        own = forged(door, holder, 0)
        yield own[:-1] + bytes([own[-1] ^ 1]) + harmless(door, holder, 1)
    behind(door, turned)


def record_again(door):
    behind(door, lambda holder: [harmless(door, holder, 0) * 2], 1)
    behind(door, lambda holder: [harmless(door, holder, 0), harmless(door, holder, 1), forged(door, holder, 0)], 2)


def record_left_out(door):
    behind(door, lambda holder: [forged(door, holder, 1)])
    behind(door, lambda holder: [harmless(door, holder, 0), forged(door, holder, 2)], 1)


def records_exchanged(door):
    behind(door, lambda holder: [forged(door, holder, 1) + forged(door, holder, 0)])


def record_of_another_connection(door):
    other = door.holder()
    # so long the port has to take its proof
    time.sleep(0.1)
    behind(door, lambda holder: [forged(door, other, 0)])
    other.close()


def record_of_another_direction(door):
    behind(door, lambda holder: [harmless(door, holder, 0), record(holder.into, 1, door.forged())], 1)


def cut_record(door):
    for count in (2, 4, 20, -32, -1):
        def cut(holder):
            yield forged(door, holder, 0)[:count]
            holder.stream.shutdown(socket.SHUT_WR)
        behind(door, cut)


def length_of_nothing(door):
    behind(door, lambda holder: [record(holder.out, 0, b''), forged(door, holder, 1)])
    behind(door, lambda holder: [bytes(36), forged(door, holder, 0)])


def greatest_length(door):
    """Lengths that are too great, and what would fill them."""
    piece = os.urandom(1_000_000)
    for length in (RECORD_BYTES + 1, 0xffffffff):
        behind(door, lambda holder: [struct.pack('>I', length), *[piece] * (FLOOD_BYTES // len(piece))])
    behind(door, lambda holder: [record(holder.out, 0, bytes(RECORD_BYTES + 1))])
    stranger = Stranger(door)
    stranger.say(struct.pack('>I', 0xffffffff) + bytes(96))
    stranger.must_end()


# time and places

def slow(door, said):
    """Sends this a byte each half second, until the port closes the connection, which it does in time."""
    stranger, began = Stranger(door), time.monotonic()
    first = door.hello()
    if not said:
        stranger.say(first)
        stranger.challenge()
    hears = len(stranger.heard)
    for at in range(80):
        stranger.say((said or bytes(80))[at:at + 1])
        if stranger.hear(hears + 1, SLOW_SECONDS):
            break
        if time.monotonic() > began + MESSAGE_SECONDS + door.patience:
            raise Found('a slow connection is not closed')
    stranger.must_end(hears)


def slow_hello(door):
    slow(door, door.hello())


def slow_proof(door):
    slow(door, None)


def all_places(door, how):
    """As many strangers as the port has places, and some more, each of whom does this; all are closed in time."""
    strangers = [Stranger(door) for _ in range(door.places + 2)]
    for it in strangers:
        how(it)
    # those that come last are taken once the first are closed
    for it in strangers:
        it.must_end(CHALLENGE, 2 * MESSAGE_SECONDS + door.patience)


def silence_on_all_places(door):
    all_places(door, lambda stranger: None)


def silence_behind_a_hello(door):
    all_places(door, lambda stranger: stranger.say(door.hello()))


def hundred_come_and_go(door):
    for _ in range(100):
        stranger = Stranger(door)
        stranger.say(os.urandom(90))
        stranger.stream.close()


def many_at_once(door):
    """Some of the others, beside each other."""
    faults = []

    def run(attack):
        try:
            attack(door)
        except Exception as fault:
            faults.append(fault)
    threads = [threading.Thread(target=run, args=(it,)) for it in (another_key, no_handshake, replay, reflection) * 4]
    for it in threads:
        it.start()
    for it in threads:
        it.join()
    if faults:
        raise faults[0]


ATTACKS = [no_handshake, half_a_hello, flood, other_bytes_of_a_hello, another_port, another_role, another_node,
           another_desk, another_sender, another_sender_on_the_way, another_key, empty_key, half_a_proof,
           first_bytes_of_a_proof, empty_proof, bit_of_a_proof, bit_of_a_nonce, reflection, second_connection,
           proof_of_a_second_connection, replay, repeated_nonce, bit_of_a_record, bit_of_a_tag, record_again,
           record_left_out, records_exchanged, record_of_another_connection, record_of_another_direction, cut_record,
           length_of_nothing, greatest_length, slow_hello, slow_proof, silence_on_all_places, silence_behind_a_hello,
           hundred_come_and_go, many_at_once]
