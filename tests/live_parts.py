"""What the scenarios of tests/live have in common: a CAN interface, devices on it, canboot, an SLCAN adapter."""
import collections
import contextlib
import os
import pathlib
import pty
import re
import shlex
import shutil
import signal
import socket
import struct
import subprocess
import sys
import tempfile
import threading
import time
import tty
import types

TOP = pathlib.Path(__file__).resolve().parent.parent
BUILT = TOP / 'crates/canboot_main/out/canboot_main'
CANBOOT = str(BUILT) if BUILT.exists() else shutil.which('canboot')
INTERFACE = 'vcan0'
# how many seconds one thing may take
PATIENCE = 60
# bits of a CAN identifier as Linux has it: all that aren't of 11 bits or remote; 29 bits; remote; an error frame
OTHER, EXTENDED, REMOTE, ERROR = 0xA0000000, 0x80000000, 0x40000000, 0x20000000
NOISE = 'A5A5A5A5'


class Differs(Exception):
    """Something isn't as it has to be."""


def want(holds, what):
    if not holds:
        raise Differs(what)


# the time before each line that a live run tells: UTC, to the millisecond
TOLD_AT = re.compile(r'\d{4}-\d\d-\d\dT\d\d:\d\d:\d\d\.\d{3}Z ')


def told(line):
    """A line, without the time before it, if it has one."""
    return TOLD_AT.sub('', line, count=1) if TOLD_AT.match(line) else line


class Lines:
    """Lines, from a thread of their own, as they come, without their times."""

    def __init__(self, source):
        # the lines, and when each came
        self.lines, self.times, self.news, self.ended = [], [], threading.Condition(), False
        threading.Thread(target=self.read, args=(source,), daemon=True).start()

    def read(self, source):
        for line in source:
            with self.news:
                self.lines.append(told(line.rstrip('\r\n')))
                self.times.append(time.monotonic())
                self.news.notify_all()
        with self.news:
            self.ended = True
            self.news.notify_all()

    def wait(self, pattern, start=0, seconds=PATIENCE):
        """The first line from `start` on that is such a one: the place behind it, and the match."""
        end, place = time.monotonic() + seconds, start
        with self.news:
            while True:
                for place in range(place, len(self.lines)):
                    if match := re.fullmatch(pattern, self.lines[place]):
                        return place + 1, match
                place = max(place, len(self.lines))
                if self.ended or not self.news.wait(max(0, end - time.monotonic())):
                    raise Differs(f"no line '{pattern}'")

    def all(self, pattern, start=0):
        return [match for line in self.lines[start:] if (match := re.fullmatch(pattern, line))]


# ---- the bus


def can_socket():
    bus = socket.socket(socket.AF_CAN, socket.SOCK_RAW, socket.CAN_RAW)
    bus.setsockopt(socket.SOL_SOCKET, socket.SO_RCVBUF, 1 << 22)
    bus.bind((INTERFACE,))
    return bus


def send(bus, identifier, data):
    bus.send(struct.pack('=IB3x8s', identifier, len(data), data.ljust(8, b'\0')))


def receive(bus):
    """The next frame with an identifier of 11 bits: this, whether it is remote, and its data."""
    while True:
        word, length, data = struct.unpack('=IB3x8s', bus.recv(16))
        if not word & OTHER:
            return word & 0x7FF, word & REMOTE != 0, data[:length]


def frames(bus, over):
    """The frames that are heard, as can-utils spells them, until it is over."""
    while not over.is_set():
        identifier, remote, data = receive(bus)
        yield f'{identifier:03X}#' + ('R' if remote else data.hex().upper())


def disturb(bus, over):
    """Sends at each SDO request what is no answer to it: of another sub-index, index or node, a cut one, a wide one,
    a remote one; and what is no boot-up message. Each that has 8 bytes ends with the bytes of NOISE. No sub-index is one that a boot asks:
    what answers a question before it once more, and otherwise, is of another device with this node-ID."""
    while not over.is_set():
        identifier, _, data = receive(bus)
        if not 0x600 < identifier < 0x680 or data[0] == 0x80 or over.is_set():
            continue
        index, sub = struct.unpack('<HB', data[1:4])
        server, control = identifier - 0x80, identifier + 0x100
        for command in (0x80, 0x43 if data[0] == 0x40 else 0x60):
            right, other_sub, other_index = (struct.pack('<BHB', command, *place) + bytes.fromhex(NOISE) for place in
                                             ((index, sub), (index, sub ^ 0x10), (index ^ 1, sub)))
            for it in ((server, other_sub), (server, other_index), (server, right[:7]), (0x5FF, right),
                       (EXTENDED | server, right), (REMOTE | server, b'')):
                send(bus, *it)
        send(bus, EXTENDED | control, b'\0')
        send(bus, control, b'\0\0')
        send(bus, 0x77F, b'\0')


class Adapter:
    """An SLCAN adapter behind a pseudo-terminal: the other end of its line is at `path`."""

    def __init__(self, scene):
        self.line, self.other = pty.openpty()
        tty.setraw(self.other)
        self.path, self.bus = os.ttyname(self.other), can_socket()
        self.opened, self.got, self.over = False, [], scene.over
        for it in (self.obey_lines, self.pass_frames):
            threading.Thread(target=it, daemon=True).start()
        scene.callback(os.close, self.other)

    def obey_lines(self):
        rest = b''
        # a failed read: nobody has the other end open any more
        with contextlib.suppress(OSError):
            while True:
                *lines, rest = (rest + os.read(self.line, 4096)).split(b'\r')
                for line in lines:
                    self.got.append(line.decode('latin-1'))
                    os.write(self.line, self.obey(self.got[-1]))

    def obey(self, line):
        """Does what a line says; the answer to it."""
        frame = re.fullmatch('(?:t([0-7][0-9A-F]{2})([0-8])((?:[0-9A-F]{2})*)|r([0-7][0-9A-F]{2})[0-8])', line)
        if frame and self.opened:
            data = bytes.fromhex(frame[3] or '')
            if frame[1] and len(data) != int(frame[2]):
                return b'\x07'
            send(self.bus, int(frame[1], 16) if frame[1] else REMOTE | int(frame[4], 16), data)
            return b'z\r'
        if line == 'O' and not self.opened:
            self.opened = True
            # behind the answer: a wide identifier, a wrong command, a wrong count, the end of a line that was cut
            return b'\rT00000702100\r\x07t70219\r00\r'
        if line == 'C' and self.opened or re.fullmatch('S[0-8]', line) and not self.opened:
            self.opened = False
            return b'\r'
        return b'\x07'

    def commands(self):
        """The lines that it got and that are no frames, once the last one closes it, or after some time."""
        end = time.monotonic() + 5
        while self.got[-1:] != ['C'] and time.monotonic() < end:
            time.sleep(0.05)
        return [it for it in self.got if it[:1] not in ('t', 'r')]

    def pass_frames(self):
        while not self.over.is_set():
            identifier, remote, data = receive(self.bus)
            if self.opened:
                text = f"{'r' if remote else 't'}{identifier:03X}{len(data)}{data.hex().upper()}\r"
                os.write(self.line, text.encode())


# ---- programs


def members(group):
    """What runs in a group of processes: the number and the name of each."""
    for it in pathlib.Path('/proc').glob('[0-9]*/stat'):
        with contextlib.suppress(OSError):
            name, state, rest = re.fullmatch(r'\d+ \((.*)\) (.) \d+ (.*)\n', it.read_text(), re.DOTALL).groups()
            if rest.split()[0] == str(group) and state != 'Z':
                yield int(it.parent.name), name


# a terminal with a shell: what is typed there comes from standard input, and what it shows goes to standard error, but what the program
# prints goes to standard output; it closes where standard input ends, and else ends with the program, and with its exit status
TERMINAL = '''
import os, pty, select, sys, termios
printed = os.dup(1)
child, line = pty.fork()
if not child:
    mode = termios.tcgetattr(0)
    mode[1] &= ~termios.OPOST
    mode[3] &= ~termios.ECHO
    termios.tcsetattr(0, termios.TCSANOW, mode)
    os.environ['NO_COLOR'] = '1'
    os.dup2(printed, 1)
    os.execvp('bash', ['bash', '--norc', '-ic', '"$0" "$@"; (exit $?)', *sys.argv[1:]])
os.close(printed)
os.close(1)
while line is not None:
    try:
        for it in select.select([line, 0], [], [])[0]:
            data = os.read(it, 65536)
            if it == line:
                os.write(2, data)
            elif data:
                os.write(line, data)
            else:
                os.close(line)
                line = None
                break
    except OSError:
        break
ended = os.waitpid(child, 0)[1]
sys.exit(os.waitstatus_to_exitcode(ended) if line is not None else 0)
'''


class Group:
    """A program in a group of processes of its own, which all end with the scene."""

    def __init__(self, scene, words):
        pipes = {name: subprocess.PIPE for name in ('stdin', 'stdout', 'stderr')}
        self.process = subprocess.Popen([str(word) for word in words], text=True, process_group=0, **pipes)
        self.out, self.err = Lines(self.process.stdout), Lines(self.process.stderr)
        scene.groups.append(self)
        scene.callback(self.end)

    def end(self):
        for number in (signal.SIGTERM, signal.SIGKILL):
            with contextlib.suppress(ProcessLookupError):
                os.killpg(self.process.pid, number)
            with contextlib.suppress(subprocess.TimeoutExpired):
                self.process.wait(5)


class Devices(Group):
    """Devices, each of which has sent its boot-up message."""

    def __init__(self, scene, words):
        super().__init__(scene, [*shlex.split(os.environ['CAN_SLAVES']), INTERFACE, *words])
        for it in words:
            self.did(it.split(',')[0], 'boot-up')

    def did(self, node, what):
        return self.out.wait(rf'[0-9.]+ {node} {what}')

    def all(self, node, what):
        return self.out.all(rf'[0-9.]+ {node} {what}')


def read_report(lines):
    report = types.SimpleNamespace(frames=[], slaves={})
    for line in lines:
        word, rest = line.split(' ', 1)
        if word == 'frame':
            report.frames.append(rest)
        elif word == 'slave':
            node, rest = rest.split(' ', 1)
            report.slaves[int(node)] = rest
        else:
            setattr(report, word, rest)
    return report


class Live(Group):
    """canboot on the bus of a scene, over can-utils, or over an SLCAN adapter."""

    def __init__(self, scene, slaves, *words, startup=1, own=1, adapter=None, journal=None, terminal=False):
        self.scene, self.start, self.asked = scene, len(scene.bus.lines), []
        # the NMT messages that another has sent, none of which is sent by canboot too
        self.others = set()
        # each run of a scene has a journal of its own, unless it is to take one that is there
        self.journal = journal or scene.folder / f'day-{len(scene.groups)}.journal'
        network = scene.folder / 'network.toml'
        text = f'own = {own}\nstartup = {startup}\n'
        for it in slaves:
            text += '\n[[slave]]\n' + ''.join(f'{key} = {value}\n' for key, value in it.items())
        network.write_text(text)
        if adapter:
            command = [CANBOOT, 'live', network, '--slcan', adapter.path]
        else:
            command = [TOP / 'canboot-on-can', INTERFACE, network]
        if terminal:
            command = [sys.executable, '-ISc', TERMINAL, *command]
        for word, value in (('--settle', '5000'), ('--answer', '1000')):
            words += () if word in words else (word, value)
        super().__init__(scene, [*command, *words, '--journal', self.journal])

    def says(self, *patterns, start=0):
        """Waits for these lines of standard error, in this order; the place behind the last."""
        for pattern in patterns:
            start, _ = self.err.wait(pattern, start)
        return start

    def tell(self, line):
        """Types a line; where its answer may stand."""
        start = len(self.err.lines)
        self.process.stdin.write(line + '\n')
        self.process.stdin.flush()
        return start

    def ask(self, line, reply, words=''):
        """Types a call, and waits for its place and this reply, with these words behind it."""
        start, match = self.err.wait(rf'(\d+) {line}: {reply}{words}', self.tell(line))
        if not line.startswith('read'):
            self.asked.append((int(match[1]), f'{line} = {reply}'))
        return start

    def quit(self):
        """Has it end, and makes sure of what holds of any run; its report."""
        self.tell('quit')
        return self.ended()

    def kill(self):
        """Kills canboot itself, and waits for the end of what runs with it."""
        for process, name in members(self.process.pid):
            if name == pathlib.Path(CANBOOT).name[:15]:
                os.kill(process, signal.SIGKILL)
        self.gone(status=128 + signal.SIGKILL)

    def gone(self, status):
        """Waits for its end."""
        try:
            found = self.process.wait(PATIENCE)
        except subprocess.TimeoutExpired:
            raise Differs('it does not end') from None
        want(found == status, f'exit status {found}, and not {status}')
        left = list(members(self.process.pid))
        want(not left, f'still running: {left}')

    def ended(self, status=0):
        """Waits for its end, and makes sure of what holds of any run; its report."""
        self.gone(status)
        end = time.monotonic() + PATIENCE
        while not self.out.ended and time.monotonic() < end:
            time.sleep(0.05)
        return self.journalled()

    def journalled(self):
        """Makes sure that the journal gives the report, and has the operator's calls where they were said to be."""
        with self.journal.open() as journal:
            replay = subprocess.run([CANBOOT, 'replay'], stdin=journal, capture_output=True, text=True)
        want(replay.returncode == 0, f'replay: {replay.stderr.strip()}')
        want(self.out.lines == replay.stdout.splitlines(), 'the report is not that of its journal')
        report = read_report(self.out.lines)
        entries = re.findall(r'^entry \d+ (.*) / .*$', self.journal.read_text(), re.MULTILINE)
        for place, entry in self.asked:
            want(entry in entries[place - 1:place], f"entry {place} is {entries[place - 1:place]}, and not '{entry}'")
        return self.sent(report)

    def sent(self, report):
        """Makes sure that the frames of the report were sent, in their order, and no other NMT message."""
        end, wanted = time.monotonic() + 10, ['000#' + it.replace(' ', '') for it in report.frames]
        while True:
            heard = [it[0] for it in self.scene.bus.all('000#.*', self.start) if it[0] not in self.others]
            if heard == wanted or time.monotonic() > end:
                break
            time.sleep(0.1)
        want(heard == wanted, f'NMT messages {heard}, and not {wanted}')
        self.scene.seen.append(self.summary(report))
        return report

    def summary(self, report):
        statuses = collections.Counter(it[1] for it in self.err.all(r'node \d+: status (\w+).*'))
        said = [f"{len(self.err.all(r'node .*: begun .*'))} begun"]
        said += [f'{count} {status}' for status, count in sorted(statuses.items())]
        for what, pattern in (('SDO requests', '6..#[24].{15}'), ('answers', f'5..#[46].{{15}}(?<!{NOISE})'),
                              ('aborts', f'[56]..#80.{{14}}(?<!{NOISE})'), ('NMT messages', '000#.{4}'),
                              ('error control messages', '7(?!7F)..#..')):
            said.append(f'{len(self.scene.bus.all(pattern, self.start))} {what}')
        return ', '.join([*said, f'{report.entries} entries'])


class Scene(contextlib.ExitStack):
    """What a scenario has: a folder, the frames of the bus, what runs on it, and what was seen."""

    def __enter__(self):
        super().__enter__()
        self.folder = pathlib.Path(tempfile.mkdtemp())
        self.callback(shutil.rmtree, self.folder)
        self.over = threading.Event()
        self.callback(self.over.set)
        self.bus, self.seen, self.groups = Lines(frames(can_socket(), self.over)), [], []
        return self

    def devices(self, *words):
        return Devices(self, words)

    def live(self, slaves, *words, **rest):
        return Live(self, slaves, *words, **rest)

    def last(self):
        """The last lines of all that ran, and of the bus."""
        return [line for it in self.groups for line in it.err.lines[-40:] + it.out.lines[-40:]] + self.bus.lines[-40:]
