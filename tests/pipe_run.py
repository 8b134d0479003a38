"""Runs of `canboot live` over two FIFOs, behind which a test plays the devices (pipe_devices.py) and the operator.

The program is the one that CANBOOT in the environment names, else crates/canboot_main/out/canboot_main.
"""
import collections
import concurrent.futures
import datetime
import fcntl
import os
import pathlib
import re
import select
import struct
import subprocess
import termios
import time

from live_parts import BUILT, TOLD_AT, Differs, read_report, told, want
from pipe_devices import ANSWER, BOOTING, HEARTBEAT, OPERATIONAL, PREOPERATIONAL, Device, Devices

CANBOOT = os.environ.get('CANBOOT') or str(BUILT)
# how many seconds a run may take, and how long the operator waits for what he expects
LONGEST, PATIENCE = 150, 60
# how many parts run side by side
SIDE_BY_SIDE = 4
# a part that fails is played again where its test was held for so many seconds meanwhile, at most so often in all: devices that are
# silent for long, since the machine's host took its processors away, are lost in earnest
TOO_LONG_HELD, MOST_PLAYED = 0.5, 3
# for how long the tests of the part that is played were held at most
HELD = []
# how often a device sends its heartbeat, and how soon it is missed; how long an answer, and a boot-up message behind a
# reset, are waited for, in ms
BEAT, MISSED, ANSWERED, SETTLE = 100, 3000, 1000, 3000
WORKERS = 3
# how often a guarded device is asked, in ms, after how many times without an answer it is lost; and how often the manager sends its
# own heartbeat, in ms
GUARD, RETRIES, OWN_BEAT = 250, 8, 1000
NODES = [2, 3, 5, 9, 64, 127]
PRODUCT, ANOTHER = 0x456, 0x457


def slave(node, mandatory=True, beat=BEAT, missed=MISSED):
    return dict(id=node, assignment=13 if mandatory else 5, device_type=0x20192, vendor=0x123, product=PRODUCT,
                revision=0x10002, serial=1000 + node, heartbeat=missed,
                writes=[[0x1017, 0, 2, beat], [0x6200, 1, 1, node]])


def guarded_slave(node):
    """A slave without a heartbeat time, whose state is asked for."""
    listed = slave(node, missed=0)
    return listed | dict(assignment=13 | RETRIES << 8 | GUARD << 16, writes=[[0x6200, 1, 1, node]])


class Counted(Device):
    """A device that counts the uploads of each of its objects, and its heartbeats since the last NMT message to it."""

    def __init__(self, slave, send):
        self.uploads, self.beats = collections.Counter(), 0
        super().__init__(slave, send)

    def beat(self):
        self.beats += 1
        return super().beat()

    def nmt(self, command):
        self.beats = 0
        super().nmt(command)

    def sdo(self, data):
        if len(data) == 8 and data[0] == 0x40:
            self.uploads[struct.unpack('<HB', data[1:4])] += 1
        super().sdo(data)


class OtherProduct(Counted):
    """A device of another product."""

    def restore(self):
        super().restore()
        self.objects[0x1018, 2] = ANOTHER


class Running(OtherProduct):
    """A device of another product that runs, whatever it is told, and sends its heartbeat."""

    def __init__(self, slave, send):
        super().__init__(slave, send)
        self.state = OPERATIONAL
        self.objects[HEARTBEAT] = BEAT
        self.later(BEAT / 1000, self.beat)

    def nmt(self, command):
        pass


class Silent(Counted):
    """A device that boots up and gives no answer."""

    def later(self, seconds, action):
        if action == self.boot_up:
            super().later(seconds, action)


class Aborting(Counted):
    """A device that aborts the write of 6200h sub 1 (06010002h: it is read-only)."""

    def sdo(self, data):
        if len(data) == 8 and data[0] == 0x2F and struct.unpack('<HB', data[1:4]) == (0x6200, 1):
            text = struct.pack('<BHBI', 0x80, 0x6200, 1, 0x06010002).hex().upper()
            self.later(ANSWER, lambda: f'{0x580 + self.node:03X}#{text}')
            return
        super().sdo(data)


class Dying(Counted):
    """A device that is heard no more from a moment on."""

    is_dead = False

    def later(self, seconds, action):
        super().later(seconds, lambda: None if self.is_dead else action())

    def nmt(self, command):
        if not self.is_dead:
            super().nmt(command)


class Mute(Counted):
    """A device that hears and obeys, and says nothing while it is mute."""

    is_mute = False

    def later(self, seconds, action):
        super().later(seconds, lambda: None if self.is_mute else action())


class Forgetting(Counted):
    """A device that doesn't turn its toggle bit from a moment on."""

    forgets = False

    def guard(self):
        super().guard()
        if self.forgets:
            self.toggle ^= 0x80


class Slow(Counted):
    """A device each of whose answers comes after twenty milliseconds."""

    def later(self, seconds, action):
        super().later(max(seconds, 0.02), action)


class SlowProduct(Slow):
    """One of another product."""

    def restore(self):
        super().restore()
        self.objects[0x1018, 2] = ANOTHER


class SlowVendor(Slow):
    """One of another vendor."""

    def restore(self):
        super().restore()
        self.objects[0x1018, 1] = ANOTHER


def two(first, second):
    """Two devices with one node-ID, of such kinds: each answer of the second comes five milliseconds behind the first's, and it says
    nothing by itself."""
    class Second(second):
        def later(self, seconds, action):
            if action not in (self.boot_up, self.beat):
                super().later(seconds, action)

    class Both(first):
        def __init__(self, slave, send):
            self.second = Second(slave, lambda seconds, action: send(seconds + 0.005, action))
            super().__init__(slave, send)

        def nmt(self, command):
            super().nmt(command)
            self.second.nmt(command)
            # it has no boot-up message to end its reset
            self.second.state = PREOPERATIONAL if self.second.state == BOOTING else self.second.state

        def sdo(self, data):
            super().sdo(data)
            self.second.sdo(data)
    return Both


class Late(Counted):
    """A device each of whose answers comes after half of the time that it is waited for."""

    def later(self, seconds, action):
        super().later(ANSWERED / 2000 if seconds == ANSWER else seconds, action)


class Beatless(Counted):
    """A device that sends no heartbeat, whatever is written, until it is told to."""

    def later(self, seconds, action):
        if action != self.beat:
            super().later(seconds, action)

    def speak(self, seconds):
        super().later(seconds, self.beat)


class Exchanged(Counted):
    """A device that is exchanged behind its answer to the question of a boot that `left` counts down to, where that is set: another one
    of another product, which has none of its writes but sends a heartbeat, boots up at once, and answers from then on."""

    left, is_other = None, False

    def restore(self):
        super().restore()
        if self.is_other:
            self.objects |= {(0x1018, 2): ANOTHER, (0x1017, 0): BEAT}

    def exchange(self):
        self.is_other = True
        self.restore()
        self.later(BEAT / 1000, self.beat)
        return self.boot_up()

    def sdo(self, data):
        super().sdo(data)
        if self.left and data[0] != 0x80:
            self.left -= 1
            if not self.left:
                self.later(ANSWER, self.exchange)


def logged(frame):
    """The line of a frame, as `candump -L` writes it."""
    return f'(0000000000.000000) can0 {frame}\n'.encode()


class Run:
    """A run of `canboot live`: what its operator waits for and types, what went to the bus, and what it said."""

    def __init__(self, folder, slaves, steps, others=(), own=1, more=(), comes_back=False, network='startup = 1', **how):
        self.folder, self.steps = pathlib.Path(folder), collections.deque(steps)
        self.devices = Devices(slaves)
        kinds = dict(others)
        for it in slaves:
            self.devices.devices[it['id']] = kinds.get(it['id'], Counted)(it, self.devices.send)
        self.frames, self.err, self.out, self.seen, self.behind = [], [], [], 0, None
        # when each frame was taken, and each line of standard error; for how long this test itself was held at most
        self.times, self.told_at, self.held = [], [], 0
        # what is said beside the devices; whether each frame that was sent comes back, as candump has it
        self.babble, self.comes_back = b'', comes_back
        # of what the program writes, what isn't read
        self.unheard = set()
        lists = ''.join('\n[[slave]]\n' + ''.join(f'{key} = {value}\n' for key, value in it.items()) for it in slaves)
        (self.folder / 'network.toml').write_text(f'own = {own}\n{network}\n' + lists)
        for name in ('receive', 'send'):
            os.mkfifo(self.folder / name)
        self.receive = os.open(self.folder / 'receive', os.O_RDWR | os.O_NONBLOCK)
        self.bus = os.open(self.folder / 'send', os.O_RDONLY | os.O_NONBLOCK)
        words = [CANBOOT, 'live', 'network.toml', '--receive', 'receive', '--send', 'send', '--journal', 'journal',
                 '--workers', str(WORKERS), '--attempts', '2', '--settle', str(SETTLE), '--answer', str(ANSWERED), *more]
        self.process = self.begin(words, **how)
        self.started = self.asked = time.monotonic()

    def begin(self, words, **how):
        """The process of a program that is run by these words."""
        pipes = {name: subprocess.PIPE for name in ('stdin', 'stdout', 'stderr')}
        return subprocess.Popen(words, bufsize=0, cwd=self.folder, **pipes, **how)

    def play(self):
        """Plays it until the program ends."""
        texts = collections.defaultdict(bytes)
        err, out = self.process.stderr.fileno(), self.process.stdout.fileno()
        takers = {err: self.take_told, out: self.out.append, self.bus: self.take_frame}
        turn = time.monotonic()
        try:
            while takers.keys() - {self.bus}:
                turn, before = time.monotonic(), turn
                self.held = max(self.held, turn - before)
                want(turn - self.started < LONGEST, 'it does not end')
                heard = [it for it in takers if it not in self.unheard]
                for it in select.select(heard, [], [], min(self.devices.wait(), 0.01))[0]:
                    data = os.read(it, 65536)
                    *lines, texts[it] = (texts[it] + data).split(b'\n')
                    for line in lines:
                        takers[it](line.decode())
                    if not data:
                        del takers[it]
                self.act()
            self.process.wait(PATIENCE)
        finally:
            HELD.append(max(self.held, time.monotonic() - turn))
            self.process.kill()
            self.process.wait()
        return self

    def take_told(self, line):
        at = TOLD_AT.match(line)
        want(at or line.startswith('canboot: '), f"'{line}' has no time before it")
        late = time.time() - datetime.datetime.fromisoformat(at[0].strip()).timestamp() if at else 0
        want(abs(late) < 60, f"'{line}' was told {late} seconds before")
        self.err.append(told(line))
        self.told_at.append(time.monotonic())

    def take_frame(self, line):
        frame = self.devices.hear(line)
        want(frame, f"'{line}' was written to the bus")
        if self.comes_back:
            os.write(self.receive, logged(frame))
        self.frames.append(frame)
        self.times.append(time.monotonic())

    def left_unread(self):
        """How many bytes of what was said the program hasn't read yet."""
        return struct.unpack('i', fcntl.ioctl(self.receive, termios.FIONREAD, bytes(4)))[0]

    def act(self):
        """Does what is to be done now: devices say something, the operator types."""
        os.write(self.receive, self.devices.said().encode())
        # whole lines, so that none of another device comes in between; most of the FIFO stays free
        if self.left_unread() < 12288:
            lines = self.babble[:self.babble.rfind(b'\n', 0, 4096) + 1]
            self.babble = self.babble[os.write(self.receive, lines):]
        if not self.steps:
            return
        awaited, typed = self.steps[0]
        if self.has_come(awaited):
            self.steps.popleft()
            self.type(typed)
            return
        want(time.monotonic() - self.asked < PATIENCE, f'{awaited} has not come; the last lines: {self.err[-5:]}')

    def has_come(self, awaited):
        """Whether a line was told that is such a one, behind the last that was awaited; or what is awaited of the run."""
        if callable(awaited):
            return awaited(self)
        while self.seen < len(self.err):
            self.seen += 1
            if re.fullmatch(awaited, self.err[self.seen - 1]):
                return True
        return False

    def type(self, typed):
        self.asked, self.behind = time.monotonic(), len(self.frames)
        if callable(typed):
            typed(self.devices.devices)
        else:
            self.process.stdin.write(typed.encode() + b'\n')

    def ended(self):
        """Makes sure that it ended in order, and that its report has the frames that went to the bus; the report."""
        want(self.process.returncode == 0, f'exit status {self.process.returncode}')
        report = read_report(self.out)
        want(report.frames == self.sent(), f'{self.sent()} was sent, and the report has {report.frames}')
        return report

    def sent(self):
        """The NMT messages that went to the bus, as a report spells them."""
        return [f'{it[4:6]} {it[6:]}' for it in self.frames if it.startswith('000#')]

    def starts(self):
        """How often each node was started by itself; no start goes to all."""
        starts = [int(it[3:], 16) for it in self.sent() if it.startswith('01 ')]
        want(0 not in starts, 'all were started')
        return collections.Counter(starts)

    def uploads(self, node):
        return self.devices.devices[node].uploads

    def times_of(self, pattern):
        """When the frames that are such ones were taken."""
        return [at for it, at in zip(self.frames, self.times) if re.fullmatch(pattern, it)]

    def told(self, pattern):
        return [it for it in self.err if re.fullmatch(pattern, it)]

    def is_ready_last(self):
        """Makes sure that the network is told to be ready behind the last start that made it so."""
        ready = self.err.index('network ready')
        started = [at for at, it in enumerate(self.err) if it.endswith(': status Ok, started')]
        want(len([at for at in started if at < ready]) == len(self.devices.devices), f'it is ready before all: {self.err}')


def waited(seconds):
    """Whether so much time has gone by since something was typed."""
    return lambda run: time.monotonic() - run.asked > seconds


def beaten(node):
    """Whether the program has read two heartbeats that a device sent behind the last NMT message to it."""
    return lambda run: run.devices.devices[node].beats > 1 and not run.left_unread() and waited(0.05)(run)


def none(_):
    """What is done where nothing is."""


def fault_of(part):
    """Plays a part once: what isn't as it has to be, or None."""
    try:
        part()
    except Exception as it:
        return str(it) if isinstance(it, Differs) else repr(it)


def why_not(part):
    """Plays a part: what isn't as it has to be, or None; again, where it was held."""
    for _ in range(MOST_PLAYED):
        HELD.clear()
        why = fault_of(part)
        if why is None or max(HELD, default=0) < TOO_LONG_HELD:
            break
    return why


def play_parts(parts, words):
    """Plays those of the parts that the words name, or all, some side by side; the exit status."""
    chosen = [it for it in parts if not words or it.__name__ in words]
    failed = 0
    with concurrent.futures.ProcessPoolExecutor(SIDE_BY_SIDE) as pool:
        for part, why in zip(chosen, pool.map(why_not, chosen)):
            failed += why is not None
            print(f"{part.__name__}: {why or 'passed'}", flush=True)
    print(f'{len(chosen) - failed} passed, {failed} failed')
    return 1 if failed or not chosen else 0
