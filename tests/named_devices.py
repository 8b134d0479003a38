"""Devices with an identity, of which values may lack, and a name, which they give in segments (CiA 301), for tests of a scan."""
import struct

from pipe_devices import ANSWER, IDENTITY, Device

NAME = 0x1008, 0
NOT_THERE = 0x06020000


def identity(node, **other):
    return dict(device_type=0x20192, vendor=0x123, product=0x456, revision=0x10002, serial=1000 + node) | other


class Named(Device):
    """A device that is asked what it is: it has these values, and a name if it is given one."""

    def __init__(self, node, send, name=None, late=0, silent=False, ends_at=None, keeps_toggle=False, expedited=False, **values):
        self.name, self.late, self.is_silent, self.ends_at = name, late, silent, ends_at
        self.keeps_toggle, self.expedited, self.values, self.left, self.turn, self.given = keeps_toggle, expedited, values, b'', 0, 0
        super().__init__({'id': node}, send)

    def restore(self):
        super().restore()
        self.objects = {IDENTITY[key]: value for key, value in self.values.items()}

    def answer(self, command, index, sub, data):
        self.reply(struct.pack('<BHB', command, index, sub) + data.ljust(4, b'\0'))

    def reply(self, data):
        text = data.hex().upper()
        self.later(ANSWER + self.late, lambda: f'{0x580 + self.node:03X}#{text}')

    def begin(self):
        """The beginning of the upload of the name."""
        index, sub = NAME
        if self.expedited:
            self.answer(0x43 | (4 - len(self.name)) << 2, index, sub, self.name)
            return
        self.left, self.turn, self.given = self.name, 0, 0
        self.answer(0x41, index, sub, struct.pack('<I', len(self.name)))

    def segment(self, toggle):
        """The next seven bytes of the name."""
        if self.ends_at == self.given:
            return
        part, self.left = self.left[:7], self.left[7:]
        self.given += 1
        turned = self.turn if self.keeps_toggle else toggle
        self.reply(bytes([turned << 4 | (7 - len(part)) << 1 | (not self.left)]) + part.ljust(7, b'\0'))

    def sdo(self, data):
        if self.is_silent or len(data) != 8:
            return
        command, index, sub = struct.unpack('<BHB', data[:4])
        if command >> 5 == 3:
            self.segment(command >> 4 & 1)
        elif command == 0x40 and (index, sub) == NAME and self.name is not None:
            self.begin()
        elif command == 0x40:
            known = self.objects.get((index, sub))
            if known is None:
                self.answer(0x80, index, sub, struct.pack('<I', NOT_THERE))
            else:
                self.answer(0x43, index, sub, struct.pack('<I', known))
