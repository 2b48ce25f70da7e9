"""The examples of `desk answer`, and the states that the file of its node may hold wherever a run is broken off: what
scripts/faults/stops-between-calls and scripts/faults/power-cuts share."""
import glob
import os
import sqlite3

from command_bytes import entry_of, prepare, start_view
from desk_clients import SECONDS
from desk_nodes import answer, clear, copy_of, same

ROOT = os.path.join(os.path.dirname(os.path.realpath(__file__)), '..', '..')


# an example that is made: a log of so many entries comes in place of another, in one step
LARGE, LARGE_ENTRIES = 'large-log', 15_000


def examples():
    """The names of the examples that end well."""
    bases = [name[:-len('.frames')] for name in sorted(glob.glob(f'{ROOT}/tests/answer/*.frames'))]
    return [os.path.basename(base) for base in bases if not os.path.isfile(f'{base}.status')]


def make_large(base):
    """Makes the files of an example: node 1 has ten entries of view 0, of which nine are committed, and gets the log
    of view 2, which begins with these nine, and fills more pages than the host's log of the file has room for."""
    notes = [{'session': 7, 'number': number, 'do': 'note', 'incident': 'urn:nena:uid:incidentid:S:other.example',
              'text': f'{number:0200}'} for number in range(1, LARGE_ENTRIES + 1)]
    entries = [entry_of(note, SECONDS) for note in notes]
    last = entry_of({'session': 8, 'number': 1, 'do': 'sign_on', 'unit': 'E1'}, SECONDS)
    with open(f'{base}.before', 'w', encoding='ascii') as file:
        file.writelines(prepare(0, 0, place, entry).hex() + '\n'
                        for place, entry in enumerate(entries[:9] + [last], 1))
    with open(f'{base}.frames', 'w', encoding='ascii') as file:
        file.write(start_view(2, 2, 9, entries).hex() + '\n')
        file.write(prepare(2, 2, LARGE_ENTRIES + 1, last).hex() + '\n')


def frames_of(name):
    """The frames that a file of hexadecimal digits with comments spells."""
    with open(name, encoding='ascii') as lines:
        data = bytes.fromhex(''.join(line.split('#')[0] for line in lines))
    frames = []
    while data:
        end = 4 + int.from_bytes(data[:4], 'big')
        frames.append(data[:end])
        data = data[end:]
    return frames


def begin(base, file):
    """Leaves the file as the example finds it."""
    clear(file)
    if os.path.isfile(f'{base}.sql'):
        with open(f'{base}.sql', encoding='utf-8') as statements:
            connection = sqlite3.connect(file)
            connection.executescript(statements.read())
            connection.close()
    if os.path.isfile(f'{base}.before'):
        same(answer(file, b''.join(frames_of(f'{base}.before')))[1:], (0, ''), f'{base}.before')


def rows_in(base):
    """The rows of the tables, none of one that is not there, or nothing where there are no tables yet."""
    same(base.execute('PRAGMA integrity_check').fetchone()[0], 'ok', 'integrity')
    there = {name for name, in base.execute('SELECT name FROM sqlite_schema')}
    rows_of = lambda it: base.execute(f'SELECT * FROM {it}').fetchall() if it in there else None
    rows = [rows_of(it) for it in ('node', 'entry', 'client')]
    return None if rows == [None] * 3 else rows


def state_of(file, room):
    """The rows that SQLite finds in a copy of the file and its log; nothing where there are no tables yet."""
    base = sqlite3.connect(copy_of(file, room))
    try:
        return rows_in(base)
    except sqlite3.DatabaseError:
        # a new file is no database before its first page is whole; its first byte is written last
        with open(file, 'rb') as it:
            same(it.read(1), b'\0', f'the first byte of {file}')
        return None
    finally:
        base.close()


class Example:
    """An example, and the states and the answers after each prefix of its packets."""

    def __init__(self, name, room):
        self.name, self.room, self.file = name, room, f'{room}/state.db'
        self.base = f'{room}/{name}' if name == LARGE else f'{ROOT}/tests/answer/{name}'
        if name == LARGE:
            make_large(self.base)
        self.frames = frames_of(f'{self.base}.frames')
        self.begin()
        self.states, self.outs = [state_of(self.file, room)], [b'']
        for count in range(len(self.frames) + 1):
            self.begin()
            out, *ended = answer(self.file, self.input(count))
            same(ended, [0, ''], name)
            self.states.append(state_of(self.file, room))
            self.outs.append(out)

    def begin(self):
        begin(self.base, self.file)

    def input(self, count=None):
        """The bytes of so many packets, or of all."""
        return b''.join(self.frames[:count])

    def check(self, out, what):
        """The state after a run that wrote these answers is one of those known, and not before that which the answers
        tell of; and the same packets once more leave the last one."""
        state, what = state_of(self.file, self.room), f'{self.name}, {what}'
        same(self.outs[-1].startswith(out), True, f'{what}: the answers {out.hex()}')
        known = [len(reported) for it, reported in zip(self.states, self.outs) if it == state]
        same(max(known, default=-1) >= len(out), True, f'{what}: the state {state} after the answers {out.hex()}')
        same(answer(self.file, self.input())[1:], (0, ''), f'{what}: the next run')
        same(state_of(self.file, self.room), self.states[-1], f'{what}: the state after the next run')
