"""The files of nodes, made as docs/FORMATS.md says, with logs that have entries already."""
import random
import shutil
import sqlite3

from command_bytes import body_of
from desk_clients import SECONDS, SHOWING, Drawer
from desk_nodes import DOMAIN, epoch_file, file_of

# those of version 1
TABLES = '''CREATE TABLE node (slot INTEGER PRIMARY KEY CHECK (slot = 1),
  version INTEGER NOT NULL, id INTEGER NOT NULL, n INTEGER NOT NULL,
  domain TEXT NOT NULL, view_no INTEGER NOT NULL,
  normal_no INTEGER NOT NULL, commit_no INTEGER NOT NULL);
CREATE TABLE entry (place INTEGER PRIMARY KEY, client INTEGER NOT NULL,
  number INTEGER NOT NULL, body BLOB NOT NULL);'''
CLIENTS = 'CREATE TABLE client (client INTEGER PRIMARY KEY, number INTEGER NOT NULL, place INTEGER NOT NULL)'
NEW_VERBS = ('stand_by', 'stand_down', 'replace')
FILLER_SESSION = 1000


class Filler:
    """Who sent the entries that the logs begin with."""

    shares = False

    def __init__(self, count, version):
        self.drawer = Drawer(random.Random('filler'), FILLER_SESSION)
        self.sent, self.commands, self.shows, self.wrong, self.again = [], [], [], [], 0
        while len(self.sent) < count:
            document = self.drawer.document()
            if document['do'] not in SHOWING and (version == 2 or document['do'] not in NEW_VERBS):
                self.sent.append(document)


# the bytes of a page of SQLite's own files, and of others
PAGES = [4096, 1024]


def make_file(file, node, n, commands, version=2, page=PAGES[0], epoch=0, places=0):
    """A file of a node whose log has these commands, all of them committed, in view 0. Its pages have so many bytes.
    That of a later epoch than the first bears its number. The first has the places of epochs that were asked for."""
    base = sqlite3.connect(file)
    base.execute(f'PRAGMA page_size = {page}')
    base.executescript(TABLES)
    base.execute('INSERT INTO node VALUES (1, ?, ?, ?, ?, 0, 0, ?)', (version, node, n, DOMAIN, len(commands)))
    base.executemany('INSERT INTO entry VALUES (?, ?, ?, ?)',
                     [(place, it['session'], it['number'], body_of(it, SECONDS))
                      for place, it in enumerate(commands, 1)])
    if version == 2:
        latest = {it['session']: (it['session'], it['number'], place) for place, it in enumerate(commands, 1)}
        base.execute(CLIENTS)
        base.executemany('INSERT INTO client VALUES (?, ?, ?)', latest.values())
    if epoch:
        base.execute('CREATE TABLE epoch (number INTEGER PRIMARY KEY)')
        base.execute('INSERT INTO epoch VALUES (?)', [epoch])
    elif places:
        base.execute('CREATE TABLE member (token INTEGER PRIMARY KEY, places INTEGER NOT NULL)')
        base.execute('INSERT INTO member VALUES (0, ?)', [places])
    base.commit()
    base.close()


def make_epoch(room, n, commands, epoch=0, page=PAGES[0]):
    """The files of an epoch of all nodes of a group, whose logs have these commands. They differ in the node alone."""
    first, *others = [epoch_file(file_of(room, node), epoch) for node in range(n)]
    make_file(first, 0, n, commands, page=page, epoch=epoch)
    for node, file in enumerate(others, 1):
        shutil.copyfile(first, file)
        with sqlite3.connect(file) as base:
            base.execute('UPDATE node SET id = ?', (node,))
        base.close()


def make_logs(room, n, count, version=2, pages=PAGES, places=0):
    """The files of a group, whose logs have so many entries, with pages of these sizes by turns, and epochs of so many
    places where that was asked for. It gives who sent the entries."""
    filler = Filler(count, version)
    for node in range(n):
        make_file(file_of(room, node), node, n, filler.sent, version, pages[node % len(pages)], places=places)
    return [filler]
