"""Hosts of their own for nodes and clients: namespaces of this kernel, joined by a switch, which is a bridge in another
one. It wants root and iproute2 (Debian's package of this name). Links are cut, slowed and delayed here."""
import collections
import ctypes
import itertools
import os
import shutil
import signal
import socket
import subprocess
import threading
import time

CLONE_NEWNET = 0x40000000
# what linux/if_packet.h and linux/if_ether.h name: whole frames, each after what the sender left to its card to do
ALL_FRAMES, SOL_PACKET, PACKET_VNET_HDR, OUTGOING = 3, 263, 15, 4
FRAME_BYTES = 70_000
# a card that nobody has
NOBODY = '02:00:00:00:de:ad'
LIBC = ctypes.CDLL(None, use_errno=True)


def missing():
    """What lacks for hosts of their own, or nothing."""
    for tool in ('ip', 'tc'):
        if shutil.which(tool) is None:
            return f'no {tool}'
    if os.geteuid() != 0:
        return 'no root'
    try:
        Network(1).close()
    except OSError as fault:
        return str(fault)
    return None


def run(*words):
    ran = subprocess.run([str(it) for it in words], capture_output=True, text=True)
    if ran.returncode != 0:
        raise OSError(f'{" ".join(map(str, words))}: {ran.stderr.strip()}')
    return ran.stdout


def inside(space, make):
    """What `make` gives in a namespace: a socket that is made there stays there."""
    made = []

    def enter():
        with open(f'/run/netns/{space}', 'rb') as file:
            if LIBC.setns(file.fileno(), CLONE_NEWNET) != 0:
                made.append(OSError(ctypes.get_errno(), f'no way into {space}'))
                return
        try:
            made.append(make())
        except Exception as fault:
            made.append(fault)
    thread = threading.Thread(target=enter)
    thread.start()
    thread.join()
    if isinstance(made[0], Exception):
        raise made[0]
    return made[0]


class Host:
    """A namespace with one card, `eth0`, whose cable ends at a port of the switch."""

    def __init__(self, network, number):
        self.network, self.number = network, number
        self.space, self.port = f'{network.name}-{number}', f's{number}'
        self.addresses = {4: f'10.77.0.{number + 1}', 6: f'fd00:77::{number + 1}'}
        run('ip', 'netns', 'add', self.space)
        run('ip', '-n', network.switch, 'link', 'add', self.port, 'type', 'veth', 'peer', 'name', 'eth0', 'netns',
            self.space)
        run('ip', '-n', network.switch, 'link', 'set', self.port, 'master', 'br0', 'up')
        run('ip', '-n', self.space, 'address', 'add', f'{self.addresses[4]}/24', 'dev', 'eth0')
        run('ip', '-n', self.space, 'address', 'add', f'{self.addresses[6]}/64', 'dev', 'eth0', 'nodad')
        for card in ('lo', 'eth0'):
            run('ip', '-n', self.space, 'link', 'set', card, 'up')
        self.ask_oftener()

    def before(self):
        """The words before a program that runs here."""
        return ['ip', 'netns', 'exec', self.space]

    def ask_oftener(self):
        """The host asks for a neighbour's address each 100 ms, as docs/RUNNING.md says, where that may be set."""
        for family in ('ipv4', 'ipv6'):
            setting = f'/proc/sys/net/{family}/neigh/eth0/retrans_time_ms'
            subprocess.run([*self.before(), 'sh', '-c', f'echo 100 > {setting}'], stderr=subprocess.DEVNULL)

    def unplug(self):
        """The host sees that its cable has no other end."""
        run('ip', '-n', self.network.switch, 'link', 'set', self.port, 'down')

    def plug(self):
        run('ip', '-n', self.network.switch, 'link', 'set', self.port, 'up')

    def cut(self):
        """The switch passes nothing on, which the host does not see."""
        run('ip', '-n', self.network.switch, 'link', 'set', self.port, 'nomaster')

    def mend(self):
        run('ip', '-n', self.network.switch, 'link', 'set', self.port, 'master', 'br0')

    def others(self):
        return [it for it in self.network.hosts if it is not self]

    def lose_what_goes_to(self, others):
        """All that this host sends to the others is lost on its way, which it does not see."""
        for other in others:
            for address in other.addresses.values():
                run('ip', '-n', self.space, 'neighbour', 'replace', address, 'lladdr', NOBODY, 'dev', 'eth0', 'nud',
                    'permanent')

    def lose_nothing(self):
        for other in self.others():
            for address in other.addresses.values():
                try:
                    run('ip', '-n', self.space, 'neighbour', 'delete', address, 'dev', 'eth0')
                except OSError:
                    # nothing of it was lost
                    pass

    def limit(self, rate):
        """Lets so much through, in both directions."""
        for space, card in ((self.network.switch, self.port), (self.space, 'eth0')):
            run('tc', '-n', space, 'qdisc', 'add', 'dev', card, 'root', 'tbf', 'rate', rate, 'burst', '16kb', 'latency',
                '300ms')

    def unlimit(self):
        for space, card in ((self.network.switch, self.port), (self.space, 'eth0')):
            run('tc', '-n', space, 'qdisc', 'delete', 'dev', card, 'root')


class Network:
    """So many hosts at a switch."""

    numbers = itertools.count()

    def __init__(self, count):
        self.name, self.hosts = f'desk-{os.getpid()}-{next(Network.numbers)}', []
        self.switch = f'{self.name}-switch'
        try:
            run('ip', 'netns', 'add', self.switch)
            run('ip', '-n', self.switch, 'link', 'add', 'br0', 'type', 'bridge')
            run('ip', '-n', self.switch, 'link', 'set', 'br0', 'up')
            for number in range(count):
                self.hosts.append(Host(self, number))
        except OSError:
            self.close()
            raise

    def close(self):
        """Ends what runs on its hosts, and the hosts."""
        spaces = run('ip', 'netns', 'list').split()
        for space in (it for it in spaces if it.startswith(f'{self.name}-')):
            for process in run('ip', 'netns', 'pids', space).split():
                os.kill(int(process), signal.SIGKILL)
            run('ip', 'netns', 'delete', space)


class Delay:
    """A relay in the cable of a host, which holds each frame for so many seconds, in both directions."""

    def __init__(self, host, seconds):
        self.host, self.seconds, self.is_over = host, seconds, False
        switch = host.network.switch
        host.cut()
        run('ip', '-n', switch, 'link', 'add', 'far', 'type', 'veth', 'peer', 'name', 'near')
        run('ip', '-n', switch, 'link', 'set', 'far', 'master', 'br0', 'up')
        run('ip', '-n', switch, 'link', 'set', 'near', 'up')
        self.ends = [inside(switch, lambda: self.open(card)) for card in (host.port, 'near')]
        for one, other in (self.ends, reversed(self.ends)):
            frames = collections.deque()
            for work in (self.take, self.give):
                threading.Thread(target=work, args=(one, other, frames), daemon=True).start()

    def open(self, card):
        end = socket.socket(socket.AF_PACKET, socket.SOCK_RAW, socket.htons(ALL_FRAMES))
        end.setsockopt(SOL_PACKET, PACKET_VNET_HDR, 1)
        end.bind((card, ALL_FRAMES))
        end.settimeout(0.2)
        return end

    def take(self, one, _, frames):
        while not self.is_over:
            try:
                frame, where = one.recvfrom(FRAME_BYTES)
            except OSError:
                # nothing came
                continue
            if where[2] != OUTGOING:
                frames.append((time.monotonic() + self.seconds, frame))

    def give(self, _, other, frames):
        while not self.is_over:
            if not frames:
                time.sleep(0.001)
                continue
            due, frame = frames.popleft()
            time.sleep(max(0, due - time.monotonic()))
            try:
                other.send(frame)
            except OSError:
                # the card is down, or its queue is full: it is lost
                pass

    def close(self):
        self.is_over = True
        run('ip', '-n', self.host.network.switch, 'link', 'delete', 'far')
        self.host.mend()
