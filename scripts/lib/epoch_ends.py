"""A node that goes over the ends of epochs, packet by packet, as a stand-in of its primary has it do: what scripts
share that stop such a node between its calls of the host."""
import os
import socket
import threading
import time

from command_bytes import entry_of, frame_of, prepare, start_view
from desk_calls import HEADER_BYTES, PLACES_MARK, PREPARE_OK, STEP, is_mark
from desk_clients import LONG_SECONDS, SECONDS
from desk_links import listen
from desk_nodes import HOST, clear, copy_of, epoch_file, epoch_files, file_of, first_port, same, serve
from desk_replies import is_filled, is_sound, is_whole, tables_of, rows_by

# an epoch has so few places; two of them are over after so many entries, and a third has begun
PLACES, ENTRIES = 2, 5
COMMIT, START_VIEW_CHANGE, DO_VIEW_CHANGE = 3, 4, 5
# how long a packet waits for its answer before it is sent again, and how long a node may take for one entry
AGAIN_SECONDS, ENTRY_SECONDS = 0.1, 60
ROWS = [(7, number, entry_of({'session': 7, 'number': number, 'do': 'open', 'kind': 'fire', 'where': f'{number} Elm'},
                             SECONDS)) for number in range(1, ENTRIES + 1)]


def header(epoch):
    """What a connection of steps of an epoch begins with."""
    return (PLACES_MARK + PLACES).to_bytes(4, 'big') + bytes([STEP]) + epoch.to_bytes(8, 'big')


class Primary:
    """A stand-in of node 0 of 3, which leads each epoch in view 0, and in the next view of its own where node 1 asks
    for another. It hears which places node 1 acknowledges."""

    def __init__(self, first):
        self.first, self.epoch, self.stream, self.views = first, None, None, {}
        self.acknowledged, self.heard, self.streams = set(), threading.Condition(), []
        self.listener = listen(first, self.hear)

    def hear(self, stream):
        """Hears the packets of a connection, to its end."""
        self.streams.append(stream)
        epoch, purpose = 0, STEP
        try:
            with stream.makefile('rb') as frames:
                while len(head := frames.read(4)) == 4:
                    if is_mark(head):
                        rest = frames.read(HEADER_BYTES - 4)
                        purpose, epoch = rest[0], int.from_bytes(rest[1:], 'big')
                    else:
                        self.note(purpose, epoch, frames.read(int.from_bytes(head, 'big')))
        except (OSError, ValueError):
            # it was closed
            pass

    def note(self, purpose, epoch, packet):
        if purpose != STEP:
            return
        if packet[1] in (START_VIEW_CHANGE, DO_VIEW_CHANGE):
            view = int.from_bytes(packet[3:11], 'big')
            self.views[epoch] = max(self.views.get(epoch, 0), view + -view % 3)
        if packet[1] == PREPARE_OK:
            with self.heard:
                self.acknowledged.add(epoch * PLACES + int.from_bytes(packet[11:19], 'big'))
                self.heard.notify_all()

    def send(self, epoch, data):
        """Sends packets of an epoch, over a connection that is there, if the node takes them."""
        try:
            if self.stream is None or self.epoch != epoch:
                self.leave()
                self.stream, self.epoch = socket.create_connection((HOST, self.first + 1), timeout=2), epoch
                self.stream.sendall(header(epoch))
            self.stream.sendall(data)
        except OSError:
            self.leave()

    def leave(self):
        if self.stream is not None:
            self.stream.close()
        self.stream = None

    def send_entry(self, place):
        """Sends the entry of a place of the history, after the commit that ends the epoch before."""
        epoch, last = divmod(place - 1, PLACES)
        if epoch > 0 and last == 0:
            self.begin_view(epoch - 1, PLACES)
            self.send(epoch - 1, frame_of(COMMIT, 0, self.views.get(epoch - 1, 0), PLACES.to_bytes(8, 'big')))
        self.begin_view(epoch, last)
        self.send(epoch, prepare(0, self.views.get(epoch, 0), last + 1, ROWS[place - 1][2]))

    def begin_view(self, epoch, last):
        """Begins the view that is asked for, where one is, with so many entries of the epoch."""
        entries = [entry for _, _, entry in ROWS[epoch * PLACES:epoch * PLACES + last]]
        if view := self.views.get(epoch, 0):
            self.send(epoch, start_view(0, view, last, entries))

    def has_acknowledged(self, place, run):
        """Whether the node acknowledges a place, and does not end before."""
        end = time.monotonic() + ENTRY_SECONDS
        while place not in self.acknowledged:
            if run.poll() is not None:
                return False
            same(time.monotonic() < end, True, f'place {place} is acknowledged in time')
            self.send_entry(place)
            with self.heard:
                self.heard.wait_for(lambda: place in self.acknowledged, AGAIN_SECONDS)
        return True

    def close(self):
        self.leave()
        for stream in [self.listener, *self.streams]:
            try:
                # those that read it have it open too
                stream.shutdown(socket.SHUT_RDWR)
            except OSError:
                # the node has ended it
                pass
            stream.close()


def rows_with_void(file):
    """The entries that the files of a node hold, committed or not, epoch by epoch."""
    return [rows_by(it, 'SELECT client, number, body FROM entry ORDER BY place')[0] if 'entry' in tables_of(it) else []
            for it in epoch_files(file)]


class Ends:
    """Runs of node 1 of 3, whose files are in a folder, over the ends of epochs."""

    def __init__(self, room):
        self.room, self.first, self.file = room, first_port(), file_of(room, 1)
        self.rows = [(client, number, entry[18:]) for client, number, entry in ROWS]

    def begin(self):
        clear(self.file)

    def saved(self):
        """The entries that the files hold, by a copy: SQLite removes the log beside a file whose first page is not
        whole, and then the node could not finish that."""
        return sum(rows_with_void(copy_of(self.file, self.room)), [])

    def run(self, before=(), attach=None, is_short=False):
        """A node is served after these words, and, unless the run is short, hears the entries that its files lack.
        `attach` is called with its process once it is ready. It gives how many places the node has acknowledged, its
        status, and what it printed."""
        place = len(self.saved()) if os.path.exists(self.file) else 0
        primary, node = Primary(self.first), serve(self.first, 1, self.file, words=['--epoch-places', PLACES],
                                                   before=before)
        try:
            if node.is_ready() and not is_short:
                if attach is not None:
                    attach(node.run.pid)
                while place < ENTRIES and primary.has_acknowledged(place + 1, node.run):
                    place += 1
            return max(primary.acknowledged, default=0), *node.end(LONG_SECONDS)
        finally:
            primary.close()

    def check(self, acknowledged, what):
        """The files are sound, and hold what was acknowledged; a run that goes on from there leaves all."""
        same(is_sound(copy_of(self.file, self.room)), True, f'{what}: SQLite finds nothing wrong')
        saved = sum(rows_with_void(f'{self.room}/copy'), [])
        same(saved, self.rows[:len(saved)], f'{what}: the entries')
        same(len(saved) >= acknowledged, True, f'{what}: {len(saved)} entries saved, {acknowledged} acknowledged')
        same(self.run()[1:], (0, ''), f'{what}: the next run')
        same((is_whole(self.file), self.saved()), (True, self.rows), f'{what}: the files after the next run')
        # the last entry is not committed
        same(is_filled(self.file, PLACES), True, f'{what}: the epochs')
        past = (ENTRIES - 1) // PLACES
        same(epoch_files(self.file), [epoch_file(self.file, it) for it in range(past + 3)], f'{what}: the files')
