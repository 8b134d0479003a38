"""The journals of `examples`, torn and changed in each way, for tests/survives: what `canboot mend` makes of each, as
docs/FORMATS.md says it."""
import concurrent.futures
import os
import pathlib
import re
import subprocess

from live_parts import Differs, want

EXAMPLES = pathlib.Path(__file__).resolve().parent.parent / 'examples'


def said_of(cut):
    """What is said of so many bytes of a last line that were cut."""
    return f"canboot: cut {cut} byte{'s' if cut > 1 else ''}, 1 line\n" if cut else ''


def is_opening(lines):
    """Whether these lines are a whole opening: header, network, and slaves with all their writes."""
    owed = 0
    for it in lines[2:]:
        kind, count = it.split()[0], re.search(r' writes (\d+)$', it)
        if (kind == 'slave') != (owed == 0):
            return False
        owed = int(count[1]) if kind == 'slave' else owed - 1
    return len(lines) >= 2 and owed == 0


def ended(lines):
    """Lines of an opening and of entries, with the line that ends them."""
    return ''.join(lines) + f"end {sum(1 for it in lines if it.startswith('entry '))}\n"


def mended(text):
    """The journal that a torn text is mended to, and what is said of it; none where it is refused. The whole lines of
    the text are the first of a journal."""
    *lines, rest = text.splitlines(keepends=True) or ['']
    if rest.endswith('\n'):
        lines, rest = [*lines, rest], ''
    opening = [it for it in lines if not it.startswith(('entry ', 'end '))]
    if lines and lines[-1].startswith('end '):
        return text, ''
    if is_opening(opening):
        return ended(lines), said_of(len(rest))
    if not rest and len(lines) == len(opening) and is_opening(opening[:-1]):
        return ended(lines[:-1]), said_of(len(lines[-1]))
    return None


def mend(canboot, text):
    """What `canboot mend` does with a text: its status, what it writes and what it says."""
    run = subprocess.run([canboot, 'mend'], input=text.encode('ascii'), capture_output=True)
    return run.returncode, run.stdout.decode(), run.stderr.decode()


def try_cut(canboot, text, place):
    """A journal's text, cut at this place."""
    status, out, err = mend(canboot, text[:place])
    wanted = mended(text[:place])
    if wanted:
        want((status, out, err) == (0, *wanted), f'cut at {place}: status {status}, {err!r}, {out!r}')
    else:
        want(status == 1 and not out, f'cut at {place}: status {status}, {err!r}, {out!r}')
        want(re.fullmatch(r'canboot: line \d+: [a-z ]+\n', err), f'cut at {place} it says {err!r}')


def try_changed(canboot, text, number):
    """A journal's text with another byte in the middle of this line, counted from 0."""
    lines = text.splitlines(keepends=True)
    line = lines[number]
    middle = len(line) // 2
    changed = ''.join([*lines[:number], line[:middle], '~', line[middle + 1:], *lines[number + 1:]])
    status, out, err = mend(canboot, changed)
    if number + 1 == len(lines):
        want((status, out, err) == (0, text, said_of(len(line))), f'line {number + 1}: {status}, {err!r}, {out!r}')
    else:
        want(status == 1 and not out, f'line {number + 1}: status {status}, {out!r}')
        want(re.fullmatch(rf'canboot: line {number + 1}: bad (header|line|network)\n', err), f'it says {err!r}')


def try_some(canboot, text, places, numbers):
    """Cuts at these places and changes of these lines: why they aren't as they have to be."""
    faults = []
    for attempt, given in ((try_cut, places), (try_changed, numbers)):
        for it in given:
            try:
                attempt(canboot, text, it)
            except Differs as why:
                faults.append(str(why))
    return faults


def try_examples(canboot):
    """Each journal of `examples`, cut at each byte, and with a changed byte in each line; how many, and each fault."""
    sides = len(os.sched_getaffinity(0))
    count, faults = 0, []
    with concurrent.futures.ProcessPoolExecutor(sides) as pool:
        waiting = []
        for path in sorted(EXAMPLES.glob('*.journal')):
            text = path.read_text()
            places, numbers = range(len(text) + 1), range(len(text.splitlines()))
            count += len(places) + len(numbers)
            for side in range(sides):
                parts = canboot, text, places[side::sides], numbers[side::sides]
                waiting.append((path.name, pool.submit(try_some, *parts)))
        for name, it in waiting:
            faults += [f'{name}: {why}' for why in it.result()]
    return count, faults
