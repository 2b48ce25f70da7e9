"""Refuses memory to programs that run: what the scripts share that preload scripts/faults/refuse.c."""
import mmap
import os
import struct
import subprocess

from desk_nodes import STORE_FAULT, is_store_fault

REFUSE = os.path.join(os.path.dirname(os.path.realpath(__file__)), '..', 'faults', 'refuse.c')

WANT = 'desk: 40 WantOfMemory\n'


class Steering:
    """The numbers by which a program's requests are refused (scripts/faults/refuse.c), also while it runs."""

    library = None

    def __init__(self, file):
        self.variables = {'LD_PRELOAD': Steering.library, 'REFUSED_STEERING': file}
        with open(file, 'w+b') as it:
            it.write(bytes(32))
            it.flush()
            self.memory = mmap.mmap(it.fileno(), 32)

    def asked(self):
        return struct.unpack_from('=q', self.memory, 0)[0]

    def refused(self):
        return struct.unpack_from('=q', self.memory, 8)[0]

    def refuse(self, after, count=1):
        """Has so many requests refused, after those that come first."""
        struct.pack_into('=q', self.memory, 16, self.asked() + after + 1)
        struct.pack_into('=q', self.memory, 24, count)

    def rest(self):
        struct.pack_into('=q', self.memory, 24, 0)


def build_library(room):
    """Compiles what is preloaded, into a folder. It needs a C compiler (CC, or cc)."""
    Steering.library = f'{room}/refuse.so'
    compiler = os.environ.get('CC', 'cc')
    subprocess.run([compiler, '-O1', '-shared', '-fPIC', '-o', Steering.library, REFUSE, '-ldl'], check=True)


def is_fault(ended, file):
    """Whether a program ended as one may that was refused memory: its store does not tell that from another fault, and
    its file has no line where the memory for that file's name was refused too."""
    return tuple(ended) in ((1, WANT), (1, STORE_FAULT)) or is_store_fault(ended, file)
