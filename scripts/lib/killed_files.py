"""Reads the files of a node each time it was killed: what scripts share that kill nodes which go over epochs."""
import os

from desk_nodes import clear, copy_file, epoch_file, epoch_files, same
from desk_replies import are_filled, is_sound_epoch, state_of


def stamp_of(file):
    """When a file and its log were written last, and how many bytes they have."""
    found = [os.stat(file + end) for end in ('', '-wal') if os.path.exists(file + end)]
    return [(it.st_mtime_ns, it.st_size) for it in found]


class KilledFiles:
    """The files of a node whose epochs have so many places, and what they held when it was killed last. They are read
    by copies in a folder, each one only where it has changed since."""

    def __init__(self, file, places, room):
        self.file, self.places, self.copy = file, places, f'{room}/killed-{os.path.basename(file)}'
        # of each epoch: when its file was written last, and what it holds
        self.stamps, self.states = [], []
        # the epochs whose files were copied, to be read, and how many files were read in all
        self.changed, self.count = [], 0

    def take(self):
        """Copies the files, while no process has them open."""
        clear(self.copy)
        stamps = [stamp_of(it) for it in epoch_files(self.file)]
        self.changed = [epoch for epoch, it in enumerate(stamps) if self.stamps[epoch:epoch + 1] != [it]]
        self.stamps = stamps
        for epoch in self.changed:
            copy_file(epoch_file(self.file, epoch), epoch_file(self.copy, epoch))

    def read(self, what):
        """Reads the copies: SQLite finds nothing wrong, all that was committed is there, and each epoch that is over
        has all its entries, all of them committed."""
        for epoch in self.changed:
            file = epoch_file(self.copy, epoch)
            same(is_sound_epoch(file), True, f'{what}: SQLite finds nothing wrong in the file of epoch {epoch}')
            commit, rows = state_of(file)
            before, rows_before = self.states[epoch] if epoch < len(self.states) else (0, [])
            same((commit >= before, rows[:before]), (True, rows_before[:before]), f'{what}: what epoch {epoch} had')
            self.states[epoch:epoch + 1] = [(commit, rows)]
        self.count += len(self.changed)
        same(are_filled(self.states, self.places), True, f'{what}: epochs that are over are whole')

    def rows(self):
        """The committed entries that were read."""
        return [row for commit, rows in self.states for row in rows[:commit]]
