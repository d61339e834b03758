#!/usr/bin/env python3
"""Plays a script by brute force: every text is read afresh after every correction, and a report is two lists compared.

usage: tools/replay.py < SCRIPT           print what the replay program prints for the script
       tools/replay.py --selftest         compare with the worked corrections of docs/REPLAY.md
       tools/replay.py --random SEED COUNT PROGRAM    compare with what PROGRAM prints for so many random scripts, broken ones among them
                                                      (the program: crates/replay/out/replay, once `rt run` has built it)

The house's tokens come from tools/brute.py, which has no table and no automaton; a book of the script is read by walking its tables from every start.
Nothing is kept from one text to the next, so nothing can be kept wrongly.
"""
import os
import random
import re
import subprocess
import sys

sys.path.insert(0, os.path.dirname(os.path.abspath(__file__)))
import brute  # noqa: E402

MOST = 1000000
WIDEST = 2 ** 64


class Broken(Exception):
    """What is wrong with a line."""


# ---- the script ----

TEXT = re.compile(rb'"((?:[^"\\]|\\[nrt\\"]|\\x[0-9a-fA-F]{2})*)"', re.DOTALL)
ESCAPE = re.compile(rb'\\(x..|.)', re.DOTALL)
LETTERS = {b'n': b'\n', b'r': b'\r', b't': b'\t', b'\\': b'\\', b'"': b'"'}


def unescape(text):
    return ESCAPE.sub(lambda m: bytes([int(m[1][1:], 16)]) if m[1][:1] == b'x' else LETTERS[m[1]], text)


def escape(text):
    named = {10: r'\n', 13: r'\r', 9: r'\t', 92: r'\\', 34: r'\"'}
    return '"' + ''.join(named.get(b) or (chr(b) if 32 <= b <= 126 else f'\\x{b:02x}') for b in text) + '"'


def split(line):
    """The fields of a line: texts as bytes in a list of one, other fields as bytes."""
    fields, rest = [], line
    while True:
        if rest[:1] == b'"':
            match = TEXT.match(rest)
            if not match:
                raise Broken('text')
            fields.append([unescape(match[1])])
            rest = rest[match.end():]
        else:
            match = re.match(rb'[^ ]*', rest)
            fields.append(match[0])
            rest = rest[match.end():]
        if not rest:
            return fields
        if rest[:1] != b' ':
            raise Broken('blank')
        rest = rest[1:]


def number(field, most=WIDEST - 1):
    if not isinstance(field, bytes) or not re.fullmatch(rb'[0-9]+', field) or int(field) > most:
        raise Broken('number')
    return int(field)


def text(field):
    if not isinstance(field, list):
        raise Broken('text')
    return field[0]


def hexes(field):
    if not isinstance(field, bytes) or not re.fullmatch(rb'-|([0-9a-fA-F]{2})+', field):
        raise Broken('table')
    return b'' if field == b'-' else bytes.fromhex(field.decode())


def size(field):
    return number(field, MOST)


def store_kind(field):
    if field not in (b'flat', b'gap'):
        raise Broken('store')
    return field


BOOK = [number] * 4 + [hexes] * 5
SETUP = {b'store': [store_kind, size], b'text': [text], b'memory': [size, size], b'token-book': BOOK, b'line-book': BOOK}
ASK = {
    b'correct': [number, number, text], b'token': [number], b'line': [number], b'where': [number],
    b'time': [number], b'copy': [number, size], b'alike': [number, number],
}


def parse(script):
    setup, asked = {}, []
    lines = script.split(b'\n')
    for count, line in enumerate(lines, 1):
        if not line or line[:1] == b'#':
            continue
        try:
            name, *fields = split(line)
            shape = SETUP.get(name) or ASK.get(name) if isinstance(name, bytes) else None
            if shape is None or len(shape) != len(fields):
                raise Broken('fields')
            values = [read(field) for read, field in zip(shape, fields)]
            if name in SETUP:
                if asked or name in setup:
                    raise Broken('set-up')
                setup[name] = values
            else:
                asked.append((name.decode(), values))
        except Broken:
            raise Broken(count) from None
    return setup, asked


# ---- reading ----

class Refused(Exception):
    """Layer, number and detail."""


def check(book):
    """The seven questions to a book."""
    states, classes, modes, rules, class_table, steps, accepts, rule_table, starts = book
    for which, (count, most) in enumerate([(states, 128), (classes, 32), (modes, 16), (rules, 64)]):
        if not 1 <= count <= most:
            raise Refused(2, 1, which)
    for which, (table, length) in enumerate([(class_table, 256), (steps, states * classes), (accepts, states), (rule_table, 2 * rules), (starts, modes)]):
        if len(table) != length:
            raise Refused(2, 2, which)
    for question, bad in [
        (3, [code for code in range(256) if class_table[code] >= classes]),
        (4, [n for n, step in enumerate(steps) if step >= states and step != 255]),
        (5, [n for n, rule in enumerate(accepts) if rule >= rules and rule != 255]),
        (6, [n for n in range(rules) if rule_table[2 * n] < 2 or rule_table[2 * n + 1] >= modes]),
        (7, [n for n, state in enumerate(starts) if state >= states or shut(book, state)]),
    ]:
        if bad:
            raise Refused(2, question, bad[0])


def shut(book, state):
    """Has no code a step here?"""
    return all(book[5][state * book[1] + book[4][code]] == 255 for code in range(256))


def book_scan(book):
    _, classes, _, _, class_table, steps, accepts, rule_table, starts = book

    def scan(mode, symbols):
        state, taken, best, reading = starts[mode], 0, None, 0
        while not shut(book, state):
            reading += 1
            if taken == len(symbols):
                break
            step = steps[state * classes + class_table[symbols[taken]]]
            if step == 255:
                break
            state, taken = step, taken + 1
            if accepts[state] != 255:
                best = taken, accepts[state]
        if best is None:
            return 0, 1, reading, mode
        length, rule = best
        return rule_table[2 * rule], length, reading, rule_table[2 * rule + 1]
    return scan


def house_lines(_mode, kinds):
    """A line goes through its newline token, kind 5; it is of kind 2 where it begins with a stamp, kind 4, else of kind 3."""
    length = kinds.index(5) + 1 if 5 in kinds else len(kinds)
    reading = length if 5 in kinds else length + 1
    return (2 if kinds[0] == 4 and length > 0 else 3), length, reading, 0


def batch(scan, symbols):
    """Dicts of kind, start, length, reading, mode and back."""
    found, place, mode = [], 0, 0
    while place < len(symbols):
        kind, length, reading, mode = scan(mode, symbols[place:])
        found.append(dict(kind=kind, start=place, length=length, reading=reading, mode=mode))
        place += length
    found.append(dict(kind=1, start=place, length=0, reading=1, mode=mode))
    for n, entry in enumerate(found):
        first = next(i for i in range(n + 1) if found[i]['start'] + found[i]['reading'] > entry['start'])
        entry['back'] = n - first
    return found


def lists(books, sheet):
    tokens = batch(books[0], sheet)
    return tokens, batch(books[1], bytes(token['kind'] for token in tokens[:-1]))


# ---- a report: two lists compared ----

def mode_before(entries, n):
    return 0 if n == 0 else entries[n - 1]['mode']


def report(old, new, place, cut, inserted):
    first = next((n for n, e in enumerate(old) if e['start'] + e['reading'] > place), len(old))
    at, back = len(new), len(old)
    for n in range(first, len(new)):
        start = new[n]['start']
        if start < place + inserted:
            continue
        same = [k for k, e in enumerate(old) if e['start'] == start + cut - inserted]
        if same and mode_before(old, same[0]) == mode_before(new, n):
            at, back = n, same[0]
            break
    changed = [t for t in range(1, len(new) - at + 1) if old[back + t - 1]['back'] != new[at + t - 1]['back']]
    return first, back - first, at - first, max(changed, default=0)


def reports(old, new, place, cut, inserted):
    of_tokens = report(old[0], new[0], place, cut, inserted)
    first, out, into, _ = of_tokens
    ends = 1 if first + into == len(new[0]) else 0
    return of_tokens + report(old[1], new[1], first, out - ends, into - ends)


# ---- a sheet ----

def replaced(sheet, room, place, cut, inserted):
    if place > len(sheet):
        raise Refused(1, 11, place)
    if cut > len(sheet) - place:
        raise Refused(1, 12, cut)
    if len(sheet) - cut + len(inserted) > room:
        raise Refused(1, 13, len(inserted))
    return sheet[:place] + inserted + sheet[place + cut:]


def five(name, entries, n):
    if n >= len(entries):
        return 'none'
    return ' '.join([name] + [str(entries[n][f]) for f in ('kind', 'length', 'reading', 'mode', 'back')])


def part(symbols, entry):
    return symbols[entry['start']:entry['start'] + entry['length']]


def stamp(word):
    match = re.fullmatch(rb'\[([0-9]{2}):([0-9]{2})\.([0-9]{2})\]', word)
    return int(match[1]) * 6000 + int(match[2]) * 100 + int(match[3]) if match else None


def question(name, values, sheet, tokens, lines):
    if name == 'token':
        return five('token', tokens, values[0])
    if name == 'line':
        return five('line', lines, values[0])
    if name == 'where':
        for n, e in enumerate(tokens):
            if e['start'] <= values[0] < e['start'] + e['length'] or n == len(tokens) - 1 and e['start'] == values[0]:
                return f'where {n} {values[0] - e["start"]}'
        return 'none'
    if name == 'time':
        time = stamp(part(sheet, tokens[values[0]])) if values[0] < len(tokens) else None
        return 'none' if time is None else f'time {time}'
    if name == 'copy':
        n, size_ = values
        buffer = b'\xff' * size_
        if n >= len(tokens):
            return f'refused 3 14 {n} {escape(buffer)}'
        word = part(sheet, tokens[n])
        if len(word) > size_:
            return f'refused 3 15 {len(word)} {escape(buffer)}'
        return f'copied {len(word)} {escape(word + buffer[len(word):])}'
    a, b = values
    if a >= len(lines) or b >= len(lines):
        return 'none'
    kinds = bytes(token['kind'] for token in tokens[:-1])
    return 'yes' if part(kinds, lines[a]) == part(kinds, lines[b]) else 'no'


def table(entries):
    rows = [('no', 'kind', 'start', 'len', 'read', 'mode', 'back')]
    rows += [(n, e['kind'], e['start'], e['length'], e['reading'], e['mode'], e['back']) for n, e in enumerate(entries)]
    return [''.join(f'{cell:>6}' for cell in row) for row in rows]


def opened(setup):
    """Room, books and opening text, or a refusal."""
    books = []
    for name, house in ((b'token-book', brute.token), (b'line-book', house_lines)):
        if name in setup:
            check(setup[name])
            books.append(book_scan(setup[name]))
        else:
            books.append(house)
    room = setup.get(b'store', [b'gap', 4096])[1]
    sheet = replaced(b'', room, 0, 0, setup.get(b'text', [b''])[0])
    tokens, lines = setup.get(b'memory', [room + 1, room + 1])
    if room > 65535:
        raise Refused(3, 8, room)
    if tokens <= room:
        raise Refused(3, 9, tokens)
    if lines <= room:
        raise Refused(3, 10, lines)
    return room, books, sheet


def refused(refusal):
    return ' '.join(['refused'] + [str(n) for n in refusal.args])


def play(script):
    """The lines that are printed. Of a broken script only the line's number is told, since the words are the program's own."""
    try:
        setup, asked = parse(script)
    except Broken as broken:
        return [f'line {broken.args[0]}: ']
    try:
        room, books, sheet = opened(setup)
    except Refused as refusal:
        return [refused(refusal)]
    now, out = lists(books, sheet), []
    for name, values in asked:
        if name != 'correct':
            out.append(question(name, values, sheet, *now))
            continue
        try:
            sheet = replaced(sheet, room, *values)
        except Refused as refusal:
            out.append(refused(refusal))
            continue
        old, now = now, lists(books, sheet)
        out.append(' '.join(['report'] + [str(n) for n in reports(old, now, values[0], values[1], len(values[2]))]))
    return out + ['text ' + escape(sheet), 'tokens', *table(now[0]), 'lines', *table(now[1])]


# ---- random scripts ----

ALPHABET = b'<<>>**  \n\n{}[01:02.50]ab\t\r\xe9\x00"\\'


def random_text(pick, most):
    if pick.random() < 0.2:
        return pick.choice([b'[12:34.56]', b'<la>', b'<la> *', b'{note}', b' *', b'>'])
    return bytes(pick.choice(ALPHABET) for _ in range(pick.randrange(most + 1)))


def random_book(pick):
    """A book that is sound for the most part."""
    states, classes, modes, rules = pick.choice([(1, 1, 1, 1), (3, 2, 2, 2), (128, 3, 2, 5), (4, 3, 3, 3), (5, 4, 1, 2)])
    class_table = bytes(pick.randrange(classes) for _ in range(256))
    steps = bytes(pick.choice([255, pick.randrange(states), pick.randrange(states)]) for _ in range(states * classes))
    accepts = bytes(pick.choice([255, pick.randrange(rules)]) for _ in range(states))
    rule_table = bytes(n for _ in range(rules) for n in (pick.randrange(2, 9), pick.randrange(modes)))
    starts = bytes(pick.randrange(states) for _ in range(modes))
    tables = [bytearray(table) for table in (class_table, steps, accepts, rule_table, starts)]
    if pick.random() < 0.15:
        table = pick.choice(tables)
        if pick.random() < 0.5:
            table.append(7)
        else:
            table[pick.randrange(len(table))] = pick.choice([0, 1, 200])
    return ' '.join([str(n) for n in (states, classes, modes, rules)] + [bytes(table).hex() or '-' for table in tables])


def random_request(pick, most):
    near = lambda: pick.choice([0, 1, 2, pick.randrange(most + 2), pick.randrange(most + 2)])
    name = pick.choice(['correct'] * 8 + ['token', 'line', 'where', 'time', 'copy', 'alike'])
    if name == 'correct':
        return f'correct {near()} {pick.choice([0, 0, 1, 2, near()])} {escape(random_text(pick, 6))}'
    if name in ('copy', 'alike'):
        return f'{name} {near()} {near()}'
    return f'{name} {near()}'


def random_script(pick):
    room = pick.choice([0, 1, 8, 20, 60])
    setup = [f'store {pick.choice(["flat", "gap"])} {room}', f'text {escape(random_text(pick, room))}']
    if pick.random() < 0.1:
        setup.append(f'memory {room + pick.randrange(3)} {room + pick.randrange(3)}')
    for name in ('token-book', 'line-book'):
        if pick.random() < 0.3:
            setup.append(f'{name} {random_book(pick)}')
    pick.shuffle(setup)
    lines = setup + [random_request(pick, room) for _ in range(pick.randrange(40))]
    script = bytearray(('\n'.join(lines) + '\n').encode('latin-1'))
    if pick.random() < 0.1:
        place = pick.randrange(len(script))
        script[place:place + pick.randrange(3)] = pick.choice([b' ', b'"', b'\\', b'9', b'\n', b'\xff'])
    return bytes(script)


def compare(seed, count, program):
    differ = 0
    for number_ in range(count):
        script = random_script(random.Random(f'{seed} {number_}'))
        done = subprocess.run([program], input=script, capture_output=True, check=False)
        want = '\n'.join(play(script)) + '\n'
        got = done.stdout.decode('latin-1')
        if re.match('line [0-9]+: ', want):
            # the words are the program's own
            got = re.sub(': .*', ': ', got)
        if got != want or done.returncode:
            differ += 1
            print('differs:', seed, number_)
    print(f'{count} scripts, {differ} differ')
    return bool(differ)


def main(words):
    if words == ['--selftest']:
        return selftest()
    if len(words) == 4 and words[0] == '--random':
        return compare(words[1], int(words[2]), words[3])
    if words:
        print(__doc__, file=sys.stderr)
        return 2
    sys.stdout.write('\n'.join(play(sys.stdin.buffer.read())) + '\n')
    return 0


# A sheet, a correction, and what is printed.
WORKED = [
    (b'<la> hey', 5, 0, b'*', 'report 0 2 1 1 0 1 1 0'),
    (b'<la> hey', 4, 0, b'*', 'report 0 1 1 2 0 1 1 0'),
    (b'<la> hey', 6, 0, b'*', 'report 2 1 3 0 0 1 1 0'),
    (b'a}b', 0, 0, b'{', 'report 0 2 3 0 0 1 1 0'),
    (b'a', 0, 0, b'{', 'report 0 2 3 0 0 1 1 0'),
    (b'<la', 3, 0, b'>', 'report 0 2 1 1 0 1 1 0'),
    (b'12345678', 9, 200, b'x', 'refused 1 11 9'),
]


def selftest():
    wrong = 0
    for before, place, cut, inserted, want in WORKED:
        script = f'text {escape(before)}\ncorrect {place} {cut} {escape(inserted)}\n'
        got = play(script.encode())[0]
        if got != want:
            wrong += 1
            print('differs:', before, place, cut, inserted, got, want)
    print(f'{len(WORKED)} tried, {wrong} differ')
    return bool(wrong)


if __name__ == '__main__':
    sys.exit(main(sys.argv[1:]))
