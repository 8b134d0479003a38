"""Files of cases: what tests/README.md says of them, read."""
import pathlib

TOP = pathlib.Path(__file__).resolve().parent.parent
DATA = TOP / 'tests/data'
TEXTS = ('in', 'out', 'err', 'journal')


class Case:
    """A case: its name, its words, its exit status, what stands in its line of each text (`sizes`), and the texts that are stored."""

    def __init__(self, line):
        head = line.decode().split(' ')
        inside = head.index('in')
        self.sizes = dict(zip(head[inside::2], head[inside + 1::2]))
        if head[0] != 'case' or list(self.sizes)[:4] != ['in', 'out', 'err', 'status'] or not set(self.sizes) <= {*TEXTS, 'status'}:
            raise ValueError(f'no case: {line!r}')
        self.name, self.status, self.texts = head[1], int(self.sizes['status']), {}
        short = {'replay': ['replay'], 'check': ['check', 'NET'], 'watch': ['watch']}
        self.words = head[3:inside] if head[2] == 'words' else short[head[2]]

    @property
    def is_story(self):
        """Whether it is the story of a watch."""
        return self.words == ['watch']

    @property
    def is_large(self):
        """Whether one of its texts is made by a rule."""
        return any(size.startswith('parts:') for size in self.sizes.values())


def take_line(data, place):
    """The bytes of a line, and the place behind it."""
    end = data.index(b'\n', place)
    return data[place:end], end + 1


def repeated(times, text):
    """The text as often as said, with its number in the place of each `~`."""
    if b'~' not in text:
        return times * text
    return b''.join(text.replace(b'~', b'%d' % number) for number in range(1, times + 1))


def take_parts(data, place, count):
    """So many parts, each behind its line."""
    parts = []
    for _ in range(count):
        line, place = take_line(data, place)
        word, times, size = line.decode().split(' ')
        if word != 'part':
            raise ValueError(f'no part: {line!r}')
        text, place = take_text(data, place, size)
        parts.append(repeated(int(times), text))
    return b''.join(parts), place


def take_text(data, place, size):
    """The text of this size at the place, and the place behind it; None where any will do, or there is none."""
    if size in (None, '-', 'none'):
        return None, place
    if size.startswith('parts:'):
        return take_parts(data, place, int(size[6:]))
    if size.startswith('@'):
        return (TOP / size[1:]).read_bytes(), place
    if size.startswith('lines:'):
        start = place
        for _ in range(int(size[6:])):
            place = take_line(data, place)[1]
        return data[start:place], place
    end = place + int(size)
    if data[end:end + 1] != b'\n':
        raise ValueError(f'no line feed {end} bytes from the start')
    return data[place:end], end + 1


def cases_of(name):
    """Each case of a file of tests/data, one after another."""
    data, place = (DATA / name).read_bytes(), 0
    while place < len(data):
        line, place = take_line(data, place)
        case = Case(line)
        for part in TEXTS:
            case.texts[part], place = take_text(data, place, case.sizes.get(part))
        yield case
