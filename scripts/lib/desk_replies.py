"""Compares what clients were answered with the log that the nodes' files hold, by a second model of the board: what
the scripts share that put nodes to faults."""
import json
import sqlite3

from board_model import Board
from command_bytes import body_of
from desk_clients import SECONDS, STALE, SUPERSEDED
from desk_nodes import DOMAIN, epoch_files

LOG_ENTRIES = 65536
# the tables of a node's state; a file of a later epoch has its mark beside them
TABLES, MARK = {'node', 'entry', 'client'}, 'epoch'


def rows_by(file, *statements):
    """What SQLite finds in a file by each of these statements."""
    base = sqlite3.connect(file)
    try:
        return [base.execute(it).fetchall() for it in statements]
    finally:
        base.close()


def is_made(file):
    """Whether a file is a database. A new one is none before its first page is whole, whose first byte is written
    last."""
    try:
        rows_by(file, 'SELECT 1 FROM sqlite_schema')
    except sqlite3.DatabaseError:
        with open(file, 'rb') as it:
            if it.read(1) == b'\0':
                return False
        raise
    return True


def tables_of(file):
    """The tables of a file, none where it was not made."""
    names = "SELECT name FROM sqlite_schema WHERE type = 'table'"
    return {name for name, in rows_by(file, names)[0]} if is_made(file) else set()


def state_of(file):
    """How many entries are committed that a file of one epoch holds, and all that it holds, as client, number and body;
    none where it was not made to its end."""
    if 'node' not in tables_of(file):
        return 0, []
    [[(commit,)], rows] = rows_by(file, 'SELECT commit_no FROM node',
                                  'SELECT client, number, body FROM entry ORDER BY place')
    return commit, rows


def rows_of_epoch(file):
    """The committed entries that a file of one epoch holds."""
    commit, rows = state_of(file)
    return rows[:commit]


def rows_of(file):
    """The committed entries that the files of a node hold: those of all its epochs."""
    return [row for each in epoch_files(file) for row in rows_of_epoch(each)]


def are_filled(states, places):
    """Whether each epoch of a node, whose files hold these states, has so many entries, all of them committed, but for
    the last one that has begun, and a file for the next one is there."""
    counts = [commit for commit, _ in states]
    past, rest = divmod(sum(counts), places)
    wanted = [places] * past + [rest]
    return counts == wanted + [0] * (len(counts) - len(wanted)) and (len(counts) > len(wanted) or rest == 0) \
        and all(len(rows) == places for _, rows in states[:past])


def is_filled(file, places):
    """The same of the files of a node."""
    return are_filled([state_of(it) for it in epoch_files(file)], places)


def is_sound_epoch(file):
    """Whether SQLite finds nothing wrong in a file of one epoch, as far as it is made."""
    return not is_made(file) or rows_by(file, 'PRAGMA integrity_check') == [[('ok',)]]


def is_sound(file):
    """Whether SQLite finds nothing wrong in a node's files, as far as they are made."""
    return all(is_sound_epoch(it) for it in epoch_files(file))


def is_whole(file):
    """Whether SQLite finds nothing wrong in a node's files, which are of version 2, each of its epoch."""
    def is_of(epoch, file):
        marked = [[(epoch,)]] == rows_by(file, f'SELECT number FROM {MARK}') if epoch else MARK not in tables_of(file)
        return marked and TABLES <= tables_of(file) and rows_by(file, 'SELECT version FROM node') == [[(2,)]]
    return is_sound(file) and all(is_of(*it) for it in enumerate(epoch_files(file)))


def agree(logs):
    """Whether of each two logs one is a prefix of the other."""
    longest = max(logs, key=len)
    return all(log == longest[:len(log)] for log in logs)


def lost(committed, clients):
    """The commands that were answered as done at a place, and that are not committed."""
    found = {(session, number) for session, number, _ in committed}
    return [(client.drawer.session, number) for client in clients for number, reply in client.commands
            if 'place' in json.loads(reply) and (client.drawer.session, number) not in found]


class Comparison:
    """The committed log, done again by the model."""

    def __init__(self, committed, clients):
        self.wrong, self.committed, self.board = [], committed, Board(DOMAIN)
        # what was sent under a number of a session, and what each committed number was answered by the model
        self.sent, self.replies, self.latest = {}, {}, {}
        # the shows that are to be compared, by the place that they stand for
        self.shows = {}
        for client in clients:
            self.wrong += client.wrong
            for document in client.sent:
                self.sent.setdefault((document['session'], document['number']), []).append(document)
            for show, reply in client.shows:
                self.shows.setdefault(json.loads(reply)['place'], []).append((show, reply))

    def check_shows(self):
        """Compares the shows that stand for as many entries as the board."""
        for show, reply in self.shows.pop(self.board.place, []):
            if self.board.show(show) != reply:
                self.wrong.append(f'{show} at {self.board.place}: {reply}, and not {self.board.show(show)}')

    def apply(self, session, number, body):
        """Does the command that was sent with this body, and says whether there was one that could come now."""
        found = [it for it in self.sent.get((session, number), []) if body_of(it, SECONDS) == body]
        if not found or number <= self.latest.get(session, 0):
            self.wrong.append(f'request {number} of session {session} is committed twice, late or otherwise than sent')
            return False
        self.latest[session] = number
        self.replies[session, number] = self.board.apply(found[0], SECONDS)
        return True

    def run(self):
        self.check_shows()
        for row in self.committed:
            if not self.apply(*row):
                return
            self.check_shows()
        self.wrong += [f'shows at {place}, which is past the committed log' for place in self.shows]

    def allows(self, client, number, reply):
        """Whether the client may get this: the reply of the committed command; and where two share a session, that
        a greater number of theirs was there first."""
        session, reported = client.drawer.session, json.loads(reply)
        if reply == self.replies.get((session, number)):
            return True
        if not client.shares:
            return False
        if reported.get('refusal') == STALE:
            return reported['latest'] > number and (session, reported['latest']) in self.sent
        return reported.get('refusal') == SUPERSEDED and (session, number) in self.replies \
            and self.latest[session] > number


def compare(committed, clients):
    """What is wrong with what the clients were answered, by the committed log."""
    comparison = Comparison(committed, clients)
    comparison.run()
    for client in clients:
        for number, reply in client.commands:
            if not comparison.allows(client, number, reply):
                key = client.drawer.session, number
                found = comparison.replies.get(key, 'not committed')
                comparison.wrong.append(f'request {number} of session {key[0]}: {reply}, by the model {found}')
    return comparison.wrong
