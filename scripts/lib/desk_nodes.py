"""Processes of the built program, and sessions with them: what the scripts share that run nodes. All that is sent goes
to ports of this host's loopback."""
import glob
import itertools
import os
import random
import re
import resource
import shutil
import signal
import socket
import subprocess
import sys
import time
import traceback
from concurrent.futures import ThreadPoolExecutor

from keyed_connections import KeyedConnection

PROGRAM = os.path.join(os.path.dirname(os.path.realpath(__file__)), '..', '..', 'crates', 'desk', 'out', 'desk')
DOMAIN = 'desk.example'
HOST = '127.0.0.1'
SESSION_PORTS = 10
OPENING = '"at":"2026-03-01T12:00:00Z","do":"open","kind":"fire","where":"12 Elm St"}'


def script():
    """The name of the script that runs."""
    return os.path.basename(sys.argv[0])


def is_built():
    """Whether the program can be run. Where it can not, that is reported."""
    if os.access(PROGRAM, os.X_OK):
        return True
    print(f'{script()}: the program is not built; ./desk build builds it', file=sys.stderr)
    return False


def same(found, wanted, what):
    if found != wanted:
        raise AssertionError(f'{what}: {found!r}, and not {wanted!r}')


def opening(session, number):
    """The command of a session that opens an incident."""
    return f'{{"session":{session},"number":{number},{OPENING}'


# the names that hold what `first_port` gave, until this script ends
RESERVED = []


def first_port(draw=random.SystemRandom()):
    """A first port of a group, all of whose ports are free now. It is below those that the host gives to connections,
    and no script that runs beside this one gets it too, also while its nodes are down."""
    while True:
        first = draw.randrange(1100, 1630) * 20
        if is_reserved(first) and all(is_free(first + k) for k in range(15)):
            return first


def is_reserved(first):
    """Whether a name that one process at a time can have is this one's from now on."""
    name = socket.socket(socket.AF_UNIX)
    try:
        name.bind(f'\0desk-first-port-{first}')
    except OSError:
        name.close()
        return False
    RESERVED.append(name)
    return True


def is_free(port):
    with socket.socket() as probe:
        probe.setsockopt(socket.SOL_SOCKET, socket.SO_REUSEADDR, 1)
        try:
            probe.bind((HOST, port))
        except OSError:
            return False
    return True


def limited(size):
    """What a process does first that is to write no file past this size: such a write fails, as on a full disk."""
    def limit():
        signal.signal(signal.SIGXFSZ, signal.SIG_IGN)
        resource.setrlimit(resource.RLIMIT_FSIZE, (size, size))
    return None if size is None else limit


class Program:
    """A run of the program, with a standard input that is held open until `end`. `size` is that past which it writes no
    file, `more` are variables beside those of this script, and `before` are words before the program. `program` is
    another one in its place."""

    # all that were started
    started = []

    def __init__(self, *words, size=None, more=(), before=(), program=PROGRAM):
        pipe = subprocess.PIPE
        self.run = subprocess.Popen([*before, program, *map(str, words)], stdin=pipe, stdout=pipe, stderr=pipe,
                                    preexec_fn=limited(size), env={**os.environ, **dict(more)})
        Program.started.append(self.run)

    def is_ready(self):
        """Whether it said that it is ready. It waits for that, or for its end."""
        return self.run.stdout.readline() == b'ready\n'

    def end(self, seconds=20):
        """Ends its standard input, and gives its status and what it printed on standard error."""
        _, reported = self.run.communicate(timeout=seconds)
        return self.run.returncode, reported.decode()

    def wait(self, seconds=20):
        """Waits for an end of its own, and gives its status and what it printed on standard error."""
        self.run.wait(timeout=seconds)
        return self.run.returncode, self.run.stderr.read().decode()

    def kill(self):
        self.run.kill()
        self.run.communicate()

    def processor_seconds(self):
        """What it has taken of the processors."""
        with open(f'/proc/{self.run.pid}/stat', encoding='ascii', errors='replace') as it:
            fields = it.read().rpartition(')')[2].split()
        return (int(fields[11]) + int(fields[12])) / os.sysconf('SC_CLK_TCK')

    def spent(self, run):
        """The processor seconds that it takes, and all seconds, that pass while something runs."""
        before, began = self.processor_seconds(), time.monotonic()
        run()
        return self.processor_seconds() - before, time.monotonic() - began


def stop_all():
    """Kills each program of this script that runs yet, a stopped one too."""
    for run in Program.started:
        if run.poll() is None:
            run.kill()
            run.wait()


def end_by_signals():
    """Has this script end by itself when it is asked to, so that what it does at its end is done."""
    for number in (signal.SIGTERM, signal.SIGHUP):
        signal.signal(number, lambda *_: sys.exit(1))


def cluster(first, nodes=3, more=(), words=()):
    return Program('cluster', '--nodes', nodes, '--domain', DOMAIN, '--port', first, *words, more=more)


def serve(first, node, file, nodes=3, size=None, more=(), before=(), words=()):
    return Program('serve', '--node', node, '--nodes', nodes, '--domain', DOMAIN, '--port', first, '--file', file,
                   *words, size=size, more=more, before=before)


def file_of(room, node):
    """The file of a node of the group whose files are in this folder."""
    return f'{room}/node-{node}.db'


def epoch_file(file, epoch):
    """The file of an epoch of the node whose first one has this name."""
    return f'{file}.{epoch}' if epoch else file


def epoch_files(file):
    """The files of the node whose first one has this name: one for each epoch, up to one that is not there."""
    return list(itertools.takewhile(os.path.exists, (epoch_file(file, it) for it in itertools.count())))


def clear(file):
    """Removes a file, and all whose names begin with its name."""
    for name in glob.glob(f'{glob.escape(file)}*'):
        os.remove(name)


def copy_file(file, copy):
    """Copies a file of a node, and its log where it has one."""
    for end in ('', '-wal'):
        if os.path.exists(file + end):
            shutil.copy(file + end, copy + end)


def copy_of(file, room):
    """A copy of a node's files in a folder, each beside one of its log where it has one."""
    copy = f'{room}/copy'
    clear(copy)
    for epoch, each in enumerate(epoch_files(file)):
        copy_file(each, epoch_file(copy, epoch))
    return copy


# what a node reports of a fault of its store, and what it says of the file
STORE_FAULT = 'desk: 41 StoreFault\n'
CLOSED, UNWRITTEN = 'can not be opened or made', \
    'can not be read or written, or a view, an index or a foreign key in it names node, entry or client'
UNMARKED = 'can not be read or written, or has another table (epoch|member)'


def is_store_fault(ended, file):
    """Whether a node ended by a fault of one of its files, the first of which has this name."""
    status, reported = ended
    why = '|'.join((CLOSED, UNWRITTEN, UNMARKED))
    return status == 1 and bool(re.fullmatch(rf'{STORE_FAULT}desk: {re.escape(file)}(\.\d+)? ({why})\n', reported))


def serve_group(room, first, words=()):
    """Starts the three nodes of a group, and does not wait until they are ready."""
    return [serve(first, node, file_of(room, node), words=words) for node in range(3)]


def answer(file, data, before=(), size=None, node=1):
    """What `desk answer` writes as a node of 3 over a file, after these words, and its status, and what it prints on
    standard error."""
    words = [*before, PROGRAM, 'answer', '--node', str(node), '--nodes', '3', '--domain', DOMAIN, '--file', file]
    ran = subprocess.run(words, input=data, capture_output=True, timeout=60, preexec_fn=limited(size))
    return ran.stdout, ran.returncode, ran.stderr.decode()


def send(port, data, seconds=60):
    """What `desk send` prints for this input, its status, and what it prints on standard error."""
    ran = subprocess.run([PROGRAM, 'send', '--port', str(port)], input=data, capture_output=True, timeout=seconds)
    return ran.stdout, ran.returncode, ran.stderr.decode()


class Session:
    """A connection to the port of a node's sessions, which may have a key."""

    def __init__(self, first, node, seconds=5, host=HOST, key=None):
        port = first + SESSION_PORTS + node
        stream = self.connect((host, port), seconds)
        stream.setsockopt(socket.IPPROTO_TCP, socket.TCP_NODELAY, 1)
        if key is None:
            self.stream, self.lines = stream, stream.makefile('rb')
        else:
            self.stream = self.lines = KeyedConnection(port, key, stream=stream)

    def connect(self, address, seconds):
        return socket.create_connection(address, timeout=seconds)

    def ask(self, line):
        """The reply to a line, without its newline, or nothing where the node ended before it."""
        self.stream.sendall(line.encode() + b'\n')
        reply = self.lines.readline()
        return reply[:-1].decode() if reply.endswith(b'\n') else None

    def close(self):
        self.lines.close()
        self.stream.close()


def ask_once(first, node, line, seconds=5, **where):
    """The reply of a node to one line, or nothing where there is none."""
    try:
        session = Session(first, node, seconds, **where)
    except OSError:
        return None
    try:
        return session.ask(line)
    except OSError:
        return None
    finally:
        session.close()


def until(seconds, found, pause=0.05):
    """What `found` gives once that is true, or what it gave last when the time is over."""
    end = time.monotonic() + seconds
    while True:
        what = found()
        if what or time.monotonic() > end:
            return what
        time.sleep(pause)


def has_passed(name, run):
    """Whether a test ends without a fault. Else its name is printed, and the fault."""
    try:
        run()
    except Exception:
        print(f'{script()}: {name}')
        traceback.print_exc(file=sys.stdout)
        return False
    return True


def run_tests(tests, run=lambda test: test()):
    """Runs tests of the built program, reports by name which fail, and how many. What a script ends with."""
    if not is_built():
        return 2
    failed = sum(not has_passed(test.__name__, lambda: run(test)) for test in tests)
    print(f'{len(tests) - failed} passed, {failed} failed')
    return failed != 0


def run_beside(tests, threads):
    """Runs tests by name beside each other, so many at a time, reports what each gives, and how many failed."""
    with ThreadPoolExecutor(threads) as pool:
        runs = [(name, pool.submit(test)) for name, test in tests]
        tell = lambda run: print(f'{script()}: {run.result()}', flush=True)
        return sum(not has_passed(name, lambda: tell(run)) for name, run in runs)
