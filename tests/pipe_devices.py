"""CANopen devices (CiA 301) in the lines of can-utils, for tests that have no CAN interface: they are given each line
that is sent to them, and have lines to be read, each at its time. They have no thread, and nothing here waits."""
import heapq
import itertools
import re
import struct
import time

STOPPED, OPERATIONAL, PREOPERATIONAL, BOOTING = 4, 5, 127, 0
# how long after a reset the boot-up message comes, and how long after a request its answer, in seconds
BOOT_UP, ANSWER = 0.004, 0.0003
LINE = re.compile(r'\(0000000000\.000000\) can0 ([0-7][0-9A-F]{2})#(R|(?:[0-9A-F]{2}){0,8})')
# objects, as index and sub-index, by the keys of a network list
IDENTITY = {'device_type': (0x1000, 0), 'vendor': (0x1018, 1), 'product': (0x1018, 2), 'revision': (0x1018, 3),
            'serial': (0x1018, 4)}
HEARTBEAT = 0x1017, 0


class Device:
    """A device that is on, in pre-operational, and has the identity that a slave of a list asks for."""

    def __init__(self, slave, send):
        self.node, self.slave, self.send = slave['id'], slave, send
        self.life = self.toggle = 0
        self.restore()
        self.state = PREOPERATIONAL

    def restore(self):
        self.objects = {place: self.slave.get(key, 0) for key, place in IDENTITY.items()}
        self.state, self.life = BOOTING, self.life + 1

    def reset(self):
        self.restore()
        self.later(BOOT_UP, self.boot_up)

    def later(self, seconds, action):
        """Does it so much later, if there was no reset by then."""
        life = self.life
        self.send(seconds, lambda: action() if life == self.life else None)

    def boot_up(self):
        self.state, self.toggle = PREOPERATIONAL, 0
        return f'{0x700 + self.node:03X}#00'

    def beat(self):
        self.later(self.objects[HEARTBEAT] / 1000, self.beat)
        return f'{0x700 + self.node:03X}#{self.state:02X}'

    def nmt(self, command):
        if command in (0x81, 0x82):
            self.reset()
        elif self.state != BOOTING:
            self.state = {1: OPERATIONAL, 2: STOPPED, 0x80: PREOPERATIONAL}[command]

    def guard(self):
        if self.state != BOOTING:
            answer = f'{0x700 + self.node:03X}#{self.state | self.toggle:02X}'
            self.toggle ^= 0x80
            self.later(ANSWER, lambda: answer)

    def sdo(self, data):
        if self.state in (STOPPED, BOOTING) or len(data) != 8:
            return
        command, index, sub = struct.unpack('<BHB', data[:4])
        known = self.objects.get((index, sub))
        if command == 0x40:
            answer = (0x80, 0x06020000) if known is None else (0x43, known)
        elif command in (0x23, 0x2B, 0x2F):
            self.objects[index, sub] = int.from_bytes(data[4:], 'little')
            if (index, sub) == HEARTBEAT and known is None and self.objects[HEARTBEAT]:
                self.later(self.objects[HEARTBEAT] / 1000, self.beat)
            answer = 0x60, 0
        else:
            return
        text = struct.pack('<BHBI', answer[0], index, sub, answer[1]).hex().upper()
        self.later(ANSWER, lambda: f'{0x580 + self.node:03X}#{text}')


class Devices:
    """The devices that the slaves of a list ask for."""

    def __init__(self, slaves):
        self.due, self.order = [], itertools.count()
        self.devices = {it['id']: Device(it, self.send) for it in slaves}

    def send(self, seconds, action):
        heapq.heappush(self.due, (time.monotonic() + seconds, next(self.order), action))

    def hear(self, line):
        """Obeys a line that was sent to them; the text of its frame, or None where it isn't the line of a frame."""
        match = LINE.fullmatch(line)
        if not match:
            return None
        identifier, remote = int(match[1], 16), match[2] == 'R'
        data, node = b'' if remote else bytes.fromhex(match[2]), identifier & 0x7F
        if identifier == 0 and len(data) == 2:
            for it in self.devices.values():
                if data[1] in (0, it.node):
                    it.nmt(data[0])
        elif node in self.devices and identifier - node == 0x600:
            self.devices[node].sdo(data)
        elif node in self.devices and identifier - node == 0x700 and remote:
            self.devices[node].guard()
        return f'{match[1]}#{match[2]}'

    def wait(self):
        """How many seconds there are until one of them has something to say."""
        return max(0, self.due[0][0] - time.monotonic()) if self.due else 1

    def said(self):
        """The lines that are due, as `candump -L` writes them."""
        text = ''
        while self.due and self.due[0][0] <= time.monotonic():
            frame = heapq.heappop(self.due)[2]()
            if frame:
                text += f'(1700000000.000000) can0 {frame}\n'
        return text
