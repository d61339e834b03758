#!/usr/bin/env python3
"""A reader by brute force: the house rules as regular expressions, tried at every place, with no table and no automaton.

usage: tools/brute.py < SHEET             print the listing table of the sheet
       tools/brute.py --vectors FILE      compare kinds and lengths with the vectors in FILE
       tools/brute.py --program FILE PROGRAM    compare the whole table of each sheet in FILE with what PROGRAM prints for it
                                                (the vectors: crates/conformance/stdin; the program: crates/listing/out/listing, once `rt run` has built it)
       tools/brute.py --selftest          compare with the worked sheets of docs/HOUSE.md

It shares nothing with the proved reader, nor with flex, so that the three can be compared.
"""
import re
import subprocess
import sys

WORD = rb'[^ \t\r\n\[\]{}<>*]+'
STAMP = rb'\[[0-9][0-9]:[0-9][0-9]\.[0-9][0-9]\]'
CHORUS = rb'<[^>]*>'

# The rules of each mode: kind, pattern, the mode after it.
RULES = [
    [
        (2, rb'[ \t\r]+', 0),
        (3, WORD, 0),
        (4, STAMP, 0),
        (5, rb'\n', 0),
        (6, rb'\{', 1),
        (7, CHORUS, 0),
        (8, CHORUS + rb'[ \t\r\n]*\*', 0),
    ],
    [
        (9, rb'[^}]+', 1),
        (10, rb'\}', 0),
    ],
]
RULES = [[(kind, re.compile(pattern, re.DOTALL), after) for kind, pattern, after in mode] for mode in RULES]

# What may be missing behind the beginning of a match: each end of a match of each rule, digits being as good as 0.
ENDINGS = [b'[00:00.00]'[n:] for n in range(11)] + [b'>', b'*', b'}']

MOST = 4096


def begins(mode, part):
    """Do these bytes begin some match of the mode?"""
    return any(pattern.fullmatch(part + ending) for ending in ENDINGS for _, pattern, _ in RULES[mode])


def closed(mode, part):
    """Can no match of the mode go on behind these bytes?"""
    return not any(begins(mode, part + bytes([byte])) for byte in range(256))


def longest_beginning(mode, text):
    """The length of the longest front of the text that begins some match; each shorter front begins the same match."""
    low, high = 0, len(text)
    while low < high:
        middle = (low + high + 1) // 2
        if begins(mode, text[:middle]):
            low = middle
        else:
            high = middle - 1
    return low


def token(mode, text):
    """Kind, length, reading and next mode of the token at the front of a text that is not empty."""
    known = longest_beginning(mode, text)
    # One more is read, a byte or the end, to know that no match goes on; not where none could anyway.
    reading = known if closed(mode, text[:known]) else known + 1
    matches = [(match.end(), kind, after) for kind, pattern, after in RULES[mode] if (match := pattern.match(text))]
    if not matches:
        return 0, 1, reading, mode
    length, kind, after = max(matches)
    return kind, length, reading, after


def read(text):
    """The list of (kind, start, length, reading, mode, lookback)."""
    found, place, mode = [], 0, 0
    while place < len(text):
        kind, length, reading, mode = token(mode, text[place:])
        found.append((kind, place, length, reading, mode))
        place += length
    found.append((1, place, 0, 1, mode))
    return [entry + (lookback(found, number),) for number, entry in enumerate(found)]


def lookback(found, number):
    """How many tokens back the first one stands that reads this token's start."""
    start = found[number][1]
    earliest = next(i for i in range(number + 1) if found[i][1] + found[i][3] > start)
    return number - earliest


def table(text):
    if len(text) > MOST:
        return 'too long\n'
    rows = [('no', 'kind', 'start', 'len', 'read', 'mode', 'back')]
    rows += [(number, *entry) for number, entry in enumerate(read(text))]
    return ''.join(''.join(f'{cell:>6}' for cell in row) + '\n' for row in rows)


WORKED = [
    (b'', [(1, 0, 1, 0, 0)]),
    (b'<la>', [(7, 4, 5, 0, 0), (1, 0, 1, 0, 1)]),
    (b'<la> *', [(8, 6, 6, 0, 0), (1, 0, 1, 0, 0)]),
    (b'<la> hey', [(7, 4, 6, 0, 0), (2, 1, 2, 0, 1), (3, 3, 4, 0, 2), (1, 0, 1, 0, 1)]),
    (b'<la', [(0, 1, 4, 0, 0), (3, 2, 3, 0, 1), (1, 0, 1, 0, 2)]),
]
WORKED_TABLE = """\
    no  kind start   len  read  mode  back
     0     7     0     4     6     0     0
     1     2     4     1     2     0     1
     2     3     5     3     4     0     2
     3     1     8     0     1     0     1
"""


def selftest():
    wrong = [text for text, want in WORKED if [(k, l, r, m, b) for k, _, l, r, m, b in read(text)] != want]
    if table(b'<la> hey') != WORKED_TABLE:
        wrong.append('the table of <la> hey')
    if table(b' ' * (MOST + 1)) != 'too long\n' or table(b' ' * MOST) == 'too long\n':
        wrong.append('the limit')
    for each in wrong:
        print('differs:', each)
    print(f'{len(WORKED) + 2} tried, {len(wrong)} differ')
    return bool(wrong)


def vectors(path):
    """The sheets in a file of vectors, each with its tokens as kind:length; the end token is left out there."""
    with open(path, encoding='ascii') as file:
        lines = file.read().splitlines()
    for sheet, tokens in zip(lines[::2], lines[1::2], strict=True):
        yield b'' if sheet == '-' else bytes.fromhex(sheet), [] if tokens == '-' else tokens.split(' ')


def compare(path):
    """Kinds and lengths of each sheet."""
    differ = sheets = tokens = 0
    for text, want in vectors(path):
        got = [f'{kind}:{length}' for kind, _, length, *_ in read(text)[:-1]]
        if got != want:
            differ += 1
            print('differs:', text)
        sheets += 1
        tokens += len(got)
    print(f'{sheets} sheets, {tokens} tokens, {differ} sheets differ')
    return bool(differ)


def compare_program(path, program):
    """The whole table of each sheet."""
    differ = sheets = 0
    for text, _ in vectors(path):
        printed = subprocess.run([program], input=text, capture_output=True, check=True).stdout
        if printed != table(text).encode():
            differ += 1
            print('differs:', text)
        sheets += 1
    print(f'{sheets} tables, {differ} differ')
    return bool(differ)


def main(words):
    if words == ['--selftest']:
        return selftest()
    if len(words) == 2 and words[0] == '--vectors':
        return compare(words[1])
    if len(words) == 3 and words[0] == '--program':
        return compare_program(words[1], words[2])
    if words:
        print(__doc__, file=sys.stderr)
        return 2
    sys.stdout.write(table(sys.stdin.buffer.read(MOST + 1)))
    return 0


if __name__ == '__main__':
    sys.exit(main(sys.argv[1:]))
