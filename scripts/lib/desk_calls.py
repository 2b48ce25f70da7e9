"""The calls by which a node writes and syncs its file and uses its sockets, as strace (Debian's package of this name)
notes them, and what its packets and replies tell before it is saved."""
import bisect
import json
import re

from desk_nodes import SESSION_PORTS, epoch_file
from desk_replies import LOG_ENTRIES

LOG_END = '-wal'
CALLS = 'pwrite64,pwritev,write,writev,ftruncate,fdatasync,fsync,sendto,sendmsg,recvfrom,recvmsg'
UNFINISHED = ' <unfinished ...>'
LINE = re.compile(r'^(\d+) +(?:<\.\.\. \w+ resumed>|(\w+)\()(.*)$')
DONE = re.compile(r'^(.*)\) += (\d+)')
OPENED = re.compile(r'^AT_FDCWD(?:<[^>]*>)?, "([^"]*)"')
WORDS = re.compile(r'^\d+<(TCP:\[[^\]]*\]|[^>]*)>(?:, "([^"]*)")?.*?(?:, (\d+))?$')
TCP = re.compile(r'^TCP:\[[\d.]+:(\d+)->[\d.]+:(\d+)\]$')
PREPARE, PREPARE_OK, COMMIT = 1, 2, 3
# what a connection begins with, unless it is one of steps of epoch 0 and an epoch has all places: a mark, which is this
# number and how many places an epoch has, or a larger one where it has all, its purpose and its epoch
PLACES_MARK, STEP, HEADER_BYTES = 0xfffe_0000, 0, 13
# where the place stands in a packet of these kinds, and where the commit; the body of a Prepare's command is its end
PLACE_AT, COMMIT_AT, BODY_AT = {1: 11, 2: 11}, {1: 19, 3: 11, 5: 19, 6: 11, 8: 19}, 45


def strace(trace, more=''):
    """The words before a program that have strace note its calls, and these more, in a file."""
    return ['strace', '-f', '-qq', '-xx', '-yy', '-s', '1000000', '-o', trace, '-e', f'trace={CALLS}{more}']


class Call:
    """A call with its file or socket, its bytes and its last word, where that is a number. It began and ended at these
    lines of the trace."""

    def __init__(self, name, words, result, began, ended):
        found = WORDS.match(words)
        at, data, last = found.groups() if found else ('', None, None)
        if name == 'openat' and (found := OPENED.match(words)):
            at = found[1]
        self.name, self.at, self.began, self.ended = name, text_of(at) if '\\x' in at else at, began, ended
        self.data, self.last = bytes.fromhex((data or '').replace('\\x', ''))[:result], last and int(last)
        ports = TCP.match(self.at)
        self.ports = (int(ports[1]), int(ports[2])) if ports else None


def text_of(digits):
    return bytes.fromhex(digits.replace('\\x', '')).decode()


def calls_of(trace):
    """The calls of a trace that ended without a fault, in the order in which they began."""
    waiting, calls = {}, []
    with open(trace, encoding='ascii') as lines:
        for at, line in enumerate(lines):
            found = LINE.match(line.rstrip('\n'))
            if found is None:
                continue
            process, name, words = found.groups()
            began = at
            if name is None:
                began, name, front = waiting.pop(process)
                words = front + words
            if words.endswith(UNFINISHED):
                waiting[process] = (began, name, words[:-len(UNFINISHED)])
            elif done := DONE.match(words):
                calls.append(Call(name, done[1], int(done[2]), began, at))
    return sorted(calls, key=lambda it: it.began)


def streams(calls):
    """The calls of each connection."""
    found = {}
    for call in calls:
        if call.data:
            found.setdefault(call.ports, []).append(call)
    return found.values()


def cut(calls, end_of):
    """What goes over a connection, cut where each piece ends: the piece, and the calls of its first and last byte."""
    data, ends, total = b''.join(it.data for it in calls), [], 0
    for call in calls:
        total += len(call.data)
        ends.append(total)
    call_of = lambda at: calls[bisect.bisect_right(ends, at)]
    start = 0
    while (end := end_of(data, start)) is not None and end <= len(data):
        yield data[start:end], call_of(start), call_of(end - 1)
        start = end


def is_mark(data):
    """Whether four bytes are the mark of a header: no frame is as long."""
    return int.from_bytes(data, 'big') >= PLACES_MARK


def end_of_frame(data, start):
    """The end of a frame, or of a header."""
    if is_mark(data[start:start + 4]):
        return start + HEADER_BYTES
    return start + 4 + int.from_bytes(data[start:start + 4], 'big') if start + 4 <= len(data) else None


class Packet(bytes):
    """A packet, and how many places lie before those of its epoch."""

    base = 0


def steps_of(calls, places):
    """The packets of a connection that are steps, where an epoch has so many places, and the calls of the first and the
    last byte of each."""
    epoch, purpose = 0, STEP
    for piece, *ends in cut(calls, end_of_frame):
        if is_mark(piece[:4]):
            purpose, epoch = piece[4], int.from_bytes(piece[5:], 'big')
        elif purpose == STEP:
            packet = Packet(piece[4:])
            packet.base = epoch * places
            yield packet, *ends


def end_of_line(data, start):
    at = data.find(b'\n', start)
    return None if at < 0 else at + 1


def number_at(packet, places):
    """The number of a packet whose place in it is given by the packet's kind, counted over all epochs, or nothing."""
    at = places.get(packet[1])
    return None if at is None else packet.base + int.from_bytes(packet[at:at + 8], 'big')


class Node:
    """What a node of a group did, by its calls: when its logs were synced, what it heard of others and what it sent. An
    epoch has so many places."""

    def __init__(self, calls, first, node, file, n=3, places=LOG_ENTRIES):
        self.file, self.places = file, places
        self.log = [it for it in calls if it.at.startswith(file) and it.at.endswith(LOG_END)]
        self.writes = [it for it in self.log if it.name.startswith(('pwrite', 'write'))]
        self.syncs = [it for it in self.log if it.name in ('fdatasync', 'fsync')]
        sends = [it for it in calls if it.ports and it.name in ('sendto', 'sendmsg', 'write', 'writev')]
        reads = [it for it in calls if it.ports and it.name in ('recvfrom', 'recvmsg')]
        packets = lambda calls: [it for stream in streams(calls) for it in steps_of(stream, places)]
        self.sent = [(it, call) for it, call, _ in
                     packets([it for it in sends if first <= it.ports[1] < first + n])]
        self.heard = [(it, call) for it, _, call in packets([it for it in reads if it.ports[0] == first + node])]
        replies = [it for it in sends if it.ports[0] == first + SESSION_PORTS + node]
        self.replies = [(json.loads(it), call) for stream in streams(replies)
                        for it, call, _ in cut(stream, end_of_line)]
        self.found = {}

    def sync_after(self, line, log):
        """The first sync of a log that began after a line of the trace."""
        return next((it for it in self.syncs if it.at == log and it.began > line), None)

    def log_of(self, place):
        """The log beside the file of a place's epoch."""
        return epoch_file(self.file, (place - 1) // self.places) + LOG_END

    def save_of_body(self, body):
        """The first sync after a write of an entry with this body."""
        if body not in self.found:
            write = next((it for it in self.writes if body in it.data), None)
            self.found[body] = write and self.sync_after(write.ended, write.at)
        return self.found[body]

    def save_of_commit(self, place):
        """The first sync after the call by which the node came to know that a place is committed: one with another
        node's PrepareOk of it, or with any packet of such a commit."""
        if place not in self.found:
            knows = lambda it: place <= max(number_at(it, COMMIT_AT) or 0,
                                            (number_at(it, PLACE_AT) or 0) * (it[1] == PREPARE_OK))
            ended = min((call.ended for it, call in self.heard if knows(it)), default=None)
            self.found[place] = None if ended is None else self.sync_after(ended, self.log_of(place))
        return self.found[place]

    def heard_bodies(self, place):
        """The bodies that were heard for a place."""
        return {it[BODY_AT:] for it, _ in self.heard if it[1] == PREPARE and number_at(it, PLACE_AT) == place}

    def reported(self):
        """What the node sent: what it is, the call, and the syncs of which one must have ended before that call."""
        for packet, call in self.sent:
            kind, place, commit = packet[1], number_at(packet, PLACE_AT), number_at(packet, COMMIT_AT)
            if kind == PREPARE:
                yield f'Prepare of place {place}', call, [self.save_of_body(packet[BODY_AT:])]
            if kind == PREPARE_OK and self.heard_bodies(place):
                yield f'PrepareOk of place {place}', call, list(map(self.save_of_body, self.heard_bodies(place)))
            if kind in (PREPARE, COMMIT) and commit:
                yield f'commit {commit}', call, [self.save_of_commit(commit)]
        for reply, call in self.replies:
            if place := reply.get('place'):
                yield f'reply of place {place}', call, [self.save_of_commit(place)]

    def early(self):
        """What was sent before it was saved."""
        return [what for what, call, saves in self.reported()
                if not any(save and save.ended < call.began for save in saves)]

    def entries_of_saves(self):
        """How many entries each sync saved that saved some, of those that the node sent."""
        bodies = {it[BODY_AT:] for it, _ in self.sent if it[1] == PREPARE}
        saves = [save.began for save in map(self.save_of_body, bodies) if save]
        return [saves.count(it) for it in set(saves)]
