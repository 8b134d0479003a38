#!/usr/bin/env python3
"""Writes the cases of what `--explain` says behind the fault of a journal. Each is a legal journal, whose answers another implementation
gave, with one change: what was expected there is what stood there before. It knows nothing of canboot.

    tests/expected_lines.py tests/data/version-*.cases > tests/data/expected.cases
"""
import random
import re
import sys

REPLIES = ('started', 'begun 1', 'begun 7', 'status Ok', 'status M', 'boot-again', 'noted', 'handled', 'done', 'state 5', 'in-time',
           'time-up', 'refused 9')
ORDERS = ('none', 'one 01 00', 'one 82 02', 'reset-unkept')


def legal_journals(path):
    """The lines of each journal of a file of cases that is accepted."""
    data = open(path, 'rb').read()
    for found in re.finditer(rb'case (\S+) replay in (\d+) out (\d+) err (\d+) status 0\n', data):
        yield data[found.end():found.end() + int(found[2])].decode('ascii').splitlines()


def answer_of(line):
    return line.split(' = ')[1]


def entries_of(lines):
    return [place for place, line in enumerate(lines) if line.startswith('entry ')]


# ---- the changes; each gives the lines, the fault with its line's number, and what is said behind it

def wrong_reply(draw, lines):
    place = draw.choice(entries_of(lines))
    expected = answer_of(lines[place])
    reply, orders = expected.split(' / ')
    others = [f'{other} / {orders}' for other in REPLIES if other != reply] + [f'{reply} / {other}' for other in ORDERS if other != orders]
    lines[place] = lines[place].split(' = ')[0] + ' = ' + draw.choice(others)
    return lines, place + 1, 'wrong reply', [f'expected: {expected}']


def another_count(draw, lines):
    count = len(entries_of(lines))
    lines[-1] = f'end {count + draw.choice((1, 5))}'
    return lines, len(lines), 'bad line', [f'expected: end {count}, or an entry']


def no_end(draw, lines):
    return lines[:-1], len(lines), 'bad line', [f'expected: end {len(entries_of(lines))} (canboot mend writes it)']


def behind_the_end(draw, lines):
    return lines + [draw.choice(('end 0', 'entry 1 start = started / reset-unkept', ''))], len(lines) + 1, 'bad line', [
        'nothing stands behind the line of the end']


def dos_lines(draw, lines):
    return [line + '\r' for line in lines], 1, 'bad header', ['the line ends in CR LF: lines of a journal end in LF alone']


def one_dos_line(draw, lines):
    place = draw.choice(entries_of(lines))
    lines[place] += '\r'
    return lines, place + 1, 'bad line', ['the line ends in CR LF: lines of a journal end in LF alone']


def unknown_seat(draw, lines):
    seats = int(lines[1].split()[8])
    place = draw.choice(entries_of(lines))
    lines[place] = re.sub('^entry [0-9]+', f'entry {draw.choice((0, seats + 1, 65535))}', lines[place])
    return lines, place + 1, 'unknown seat', [f'expected: a seat of 1 to {seats}']


def over_limit(draw, lines):
    entries = entries_of(lines)
    if len(entries) < 2:
        return None
    limit = draw.randrange(1, len(entries))
    lines[1] = re.sub('limit [0-9]+', f'limit {limit}', lines[1])
    return lines, entries[limit] + 1, 'over limit', [f'expected: end {limit}, which is the limit']


def misspelled_entry(draw, lines):
    place = draw.choice(entries_of(lines))
    lines[place] = draw.choice((lines[place].replace(' = ', '  = '), lines[place].replace(' / ', ' '), lines[place] + ' ', 'entry '))
    return lines, place + 1, 'bad line', ['expected: entry SEAT CALL = REPLY / ORDERS']


def no_entry(draw, lines):
    place = draw.choice(entries_of(lines))
    before = entries_of(lines).index(place)
    lines[place] = draw.choice(('', 'Entry 1 start = started / reset-unkept', 'slave', 'end'))
    return lines, place + 1, 'bad line', [f'expected: end {before}, or an entry']


def misspelled_network(draw, lines):
    lines[1] = lines[1].replace(' startup ', ' start ')
    return lines, 2, 'bad line', ['expected: network own ID startup HEX boottime MS seats N limit N']


def misspelled_slave(draw, lines):
    lines[2] = lines[2].replace(' vendor ', ' Vendor ')
    return lines, 3, 'bad line', ['expected: slave ID assign HEX type HEX vendor HEX product HEX revision HEX serial HEX heartbeat MS '
                                  'date HEX time HEX writes N']


def misspelled_write(draw, lines):
    writes = [place for place, line in enumerate(lines) if line.startswith('write ')]
    if not writes:
        return None
    lines[writes[0]] = 'write 6060 00 3 000000'
    return lines, writes[0] + 1, 'bad line', ['expected: write INDEX SUB SIZE VALUE']


def another_version(draw, lines):
    lines[0] = draw.choice(('canboot journal 3', 'canboot journal', '', 'Canboot journal 2'))
    return lines, 1, 'bad header', ['expected: canboot journal 2, or canboot journal 1']


def hold_of_version_1(draw, lines):
    holds = [place for place in entries_of(lines) if lines[place].split()[2] in ('hold', 'release')]
    if lines[0] != 'canboot journal 2' or not holds or 65536 < int(lines[1].split()[10]):
        return None
    lines[0] = 'canboot journal 1'
    return lines, holds[0] + 1, 'bad line', ['a journal of version 1 has no hold and no release']


CHANGES = (wrong_reply, wrong_reply, wrong_reply, another_count, no_end, behind_the_end, dos_lines, one_dos_line, unknown_seat, over_limit,
           misspelled_entry, no_entry, misspelled_network, misspelled_slave, misspelled_write, another_version, hold_of_version_1)


def put_case(name, words, text, err):
    said = ''.join(line + '\n' for line in err)
    size = f'lines:{text.count(chr(10))}' if text == '' or text.endswith('\n') else str(len(text))
    sys.stdout.write(f'case {name} words {words} in {size} out lines:0 err lines:{len(err)} status 1\n')
    sys.stdout.write(text + ('' if text == '' or text.endswith('\n') else '\n') + said)


def put_torn(draw, number, lines):
    """A journal that is cut inside of its last line."""
    text = ''.join(line + '\n' for line in lines)
    torn = text[:len(text) - draw.randrange(1, len(lines[-1]) + 1)]
    put_case(f'expected-torn-{number}', 'replay --explain', torn, [
        f'canboot: line {len(lines)}: bad line', '  the line has no line feed at its end',
        f'  expected: end {len(entries_of(lines))} (canboot mend writes it)'])


def main():
    draw = random.Random(51)
    put_case('expected-empty', 'replay --explain', '', ['canboot: line 1: bad header', '  the input is empty'])
    journals = [lines for path in sys.argv[1:] for lines in legal_journals(path)]
    journals = [lines for lines in journals if 5 < len(lines) < 60 and lines[2].startswith('slave ') and entries_of(lines)]
    draw.shuffle(journals)
    number = 0
    for lines in journals[:68]:
        for change in draw.sample(CHANGES, 3):
            changed = change(draw, list(lines))
            if changed is None:
                continue
            text, place, fault, said = changed
            command = draw.choice(('replay --explain', 'replay --explain', 'tell --explain', 'tell --node 3 --explain'))
            put_case(f'expected-{change.__name__.replace("_", "-")}-{number}', command, ''.join(line + '\n' for line in text),
                     [f'canboot: line {place}: {fault}'] + ['  ' + words for words in said])
            number += 1
        if number % 7 == 0:
            put_torn(draw, number, lines)


main()
