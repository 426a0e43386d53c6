#!/usr/bin/env python3
"""Makes the cases of crate vectors and the answers that document 01 gives them.

    make.py            writes crates/vectors/data/cases and crates/vectors/stdout
    make.py --check    says whether the two files are what this script makes (exit status 1 if not)

The answers are those of tests/reference/tockbronze_reference.py, which shares nothing with the crates.

The file cases is a row of cases: a command byte, the case's length in two bytes, the case. Numbers have their lowest byte
first. One table is at hand; a case that gives a table puts it there.

    A              the full adder's table
    B book         a whole book by both readers; its table
    C goal cap     the choice (a byte, four bytes)
    D set size fill   the dictionary, in a buffer of size bytes that hold fill (four bytes, two, one)
    E              the empty table
    F fields       a table by its fields: 8 bytes for each count, 1,464 cells, 60 lines, 60 stuck values
    O size fill book   the report, in a buffer of size bytes that hold fill (two bytes, one)
    P book         a book record by record, by both readers
    Q              well formed or not, classes, undetectable faults, set-aside and essential tests
    R place fault test stage book   one record after the table at hand and a stage (8 bytes, 8, 8, one)
    S set outputs  the suspects
    W set size fill   the witness sheet

Each case has one line of answers: the command and numbers. A list stands as one sum; a lent buffer is written
out besides, two hexadecimal digits a byte.
"""

import os
import sys

HERE = os.path.dirname(os.path.abspath(__file__))
ROOT = os.path.dirname(os.path.dirname(HERE))
sys.path.insert(0, os.path.join(ROOT, 'tests', 'reference'))
sys.dont_write_bytecode = True

import tockbronze_reference as ref  # noqa: E402

GOALS = ('detect', 'diagnose')
REFUSALS = tuple(range(1, 13)) + tuple(range(20, 26))
LEAST_OF_EACH = 50
LARGEST = 2 ** 64 - 1
EXAMPLES = ('c17', 'full-adder', 'hard-binary-2', 'hard-comb', 'hard-star-1', 'mux-4-1')
T, F, R, E = ref.TEST, ref.FAULT, ref.RESPONSE, ref.END


# ------------------------------------------------------------------- chance

class Chance:
    """Numbers from a fixed seed, the same under every version of Python."""

    def __init__(self, seed):
        self.state = seed

    def below(self, n):
        self.state = (self.state * 6364136223846793005 + 1442695040888963407) % 2 ** 64
        return (self.state >> 33) % n

    def one_in(self, n):
        return self.below(n) == 0

    def of(self, items):
        return items[self.below(len(items))]

    def shuffled(self, items):
        items = list(items)
        for i in range(len(items) - 1, 0, -1):
            j = self.below(i + 1)
            items[i], items[j] = items[j], items[i]
        return items


# --------------------------------------------------------------------- sums

def mix(total, n):
    return (total % 2147483647 * 16777619 + n % 2147483647 + 1) % 2147483647


def mixed(total, numbers):
    for n in numbers:
        total = mix(total, n)
    return total


def mixed_table(total, table):
    total = mix(mix(total, table.tests), table.faults)
    return mixed(mixed(mixed(total, table.cells), table.lines), table.stuck)


# -------------------------------------------------------------------- cases

class Cases:
    def __init__(self):
        self.data = bytearray()
        self.lines = []
        self.table = ref.empty_table()
        self.refused = dict.fromkeys(REFUSALS, 0)

    def add(self, command, case, numbers):
        assert len(case) <= 8192
        self.data += command.encode() + len(case).to_bytes(2, 'little') + bytes(case)
        self.lines.append(' '.join([command] + [str(n) for n in numbers]))

    def count(self, number):
        if number:
            self.refused[number] += 1

    def given(self, command, case, table):
        self.table = table
        self.add(command, case, [mixed_table(0, table)])

    def adder(self):
        self.given('A', b'', ref.full_adder())

    def empty(self):
        self.given('E', b'', ref.empty_table())

    def fields(self, table):
        case = table.tests.to_bytes(8, 'little') + table.faults.to_bytes(8, 'little')
        self.given('F', case + bytes(table.cells + table.lines + table.stuck), table.copy())

    def book(self, book):
        number, place, table = ref.read_book(book)
        self.count(number)
        answer = [number, place, mixed_table(0, table)]
        self.table = table
        self.add('B', book, answer + answer)

    def questions(self):
        table = self.table
        number, count, of = ref.classify(table)
        answers = [int(ref.well_formed(table)), number, count, mixed(0, of)]
        answers += ref.undetectable(table)
        for call in (ref.set_aside, ref.essential):
            for goal in GOALS:
                answers += call(table, goal)
        self.count(number)
        self.add('Q', b'', answers)

    def choose(self, goal, cap):
        number, chosen = ref.choose(self.table, GOALS[goal], cap)
        self.count(number)
        self.add('C', bytes([goal]) + cap.to_bytes(4, 'little'), [number, chosen])
        return chosen

    def lent(self, command, call, chosen, size, fill):
        buffer = bytearray([fill]) * size
        number, count = call(self.table, chosen, buffer)
        self.count(number)
        answers = [number, count, mixed(0, buffer), buffer.hex()]
        case = chosen.to_bytes(4, 'little') + size.to_bytes(2, 'little') + bytes([fill])
        self.add(command, case, answers)

    def dictionary(self, chosen, size, fill):
        self.lent('D', ref.dictionary, chosen, size, fill)

    def sheet(self, chosen, size, fill):
        self.lent('W', ref.witness_sheet, chosen, size, fill)

    def report(self, book, size, fill):
        text = ref.report(book)
        short = size < len(text)
        if short:
            self.count(24)
        buffer = bytes([fill]) * size if short else text + bytes([fill]) * (size - len(text))
        answers = [24, 0] if short else [0, len(text)]
        answers += [mixed(0, buffer), buffer.hex()]
        self.add('O', size.to_bytes(2, 'little') + bytes([fill]) + book, answers)

    def suspects(self, chosen, outputs):
        number, count, columns = ref.suspects_of(self.table, chosen, outputs)
        self.count(number)
        self.add('S', chosen.to_bytes(4, 'little') + bytes(outputs), [number, count, mixed(0, columns)])

    def step(self, book, place, so_far):
        outcome, next_place, after = ref.read_record(book, place, so_far)
        if outcome[0] == 'record':
            code, total = 100, mixed(mix(0, outcome[1]), outcome[2])
        else:
            code = 0 if outcome[0] == 'accepted' else outcome[1]
            total = mix(0, code)
            self.count(code)
        total = mix(total, next_place)
        stage = ('tests', 'faults', 'responses', 'ended').index(after.stage[0])
        total = mixed(mix(total, stage), after.stage[1:])
        total = mixed_table(total, after.table)
        return [code, next_place, total, total], next_place, after

    def records(self, book):
        place, so_far, answers = 0, ref.begin(), []
        while True:
            answer, place, so_far = self.step(book, place, so_far)
            answers += answer
            if answer[0] != 100:
                break
        self.add('P', book, answers)

    def record(self, place, stage, book):
        names = ('tests', 'faults', 'responses', 'ended')
        fault, test = stage[1:] if len(stage) == 3 else (0, 0)
        case = b''.join(n.to_bytes(8, 'little') for n in (place, fault, test))
        case += bytes([names.index(stage[0])]) + bytes(book)
        answer, _, _ = self.step(book, place, ref.SoFar(self.table, stage))
        self.add('R', case, answer)


# ------------------------------------------------------------ books, tables

def records_of(table):
    """The records of a table's book."""
    records = [bytes([T, ref.cell(table, t, 0)]) for t in range(table.tests)]
    records += [bytes([F, table.lines[f], table.stuck[f]]) for f in range(table.faults)]
    for f in range(table.faults):
        for t in range(table.tests):
            output = ref.cell(table, t, f + 1)
            if output != ref.cell(table, t, 0):
                records.append(bytes([R, t, f, output]))
    records.append(bytes([E, table.tests, table.faults]))
    return records


def book_of(table):
    return b''.join(records_of(table))


STYLES = ('dense', 'bits', 'sparse', 'lone', 'equal columns', 'equal tests', 'undetectable', 'healthy')


def random_table(chance, tests, faults, style):
    table = ref.empty_table()
    table.tests, table.faults = tests, faults
    labels = chance.shuffled((line, stuck) for line in range(256) for stuck in (0, 1))
    for f in range(faults):
        table.lines[f], table.stuck[f] = labels[f]
    values = 256 if style == 'dense' else 2 if style in ('bits', 'lone') else 4
    for t in range(tests):
        correct = chance.below(values)
        for c in range(faults + 1):
            table.cells[t * ref.COLUMNS + c] = correct
            if c > 0 and differs(chance, style, t, c, tests):
                table.cells[t * ref.COLUMNS + c] = chance.below(values)
    if style == 'equal columns':
        for c in range(1, faults + 1):
            if chance.one_in(2):
                copied = chance.below(c)
                for t in range(tests):
                    table.cells[t * ref.COLUMNS + c] = ref.cell(table, t, copied)
    if style == 'equal tests':
        for t in range(1, tests):
            if chance.one_in(2):
                copied = chance.below(t)
                for c in range(faults + 1):
                    table.cells[t * ref.COLUMNS + c] = ref.cell(table, copied, c)
    return table


def differs(chance, style, test, column, tests):
    if style == 'healthy':
        return False
    if style == 'sparse':
        return chance.one_in(6)
    if style == 'lone':
        return column % tests == test or chance.one_in(9)
    if style == 'undetectable':
        return column % 3 != 0 and chance.one_in(3)
    return True


def longest():
    """The table of the longest book: every response differs."""
    table = ref.empty_table()
    table.tests, table.faults = ref.MAX_TESTS, ref.MAX_FAULTS
    for f in range(table.faults):
        table.lines[f], table.stuck[f] = 255 - f, f % 2
        for t in range(table.tests):
            table.cells[t * ref.COLUMNS + f + 1] = 1 + (t * 7 + f * 3) % 251
    return table


# ------------------------------------------------- cases on a table at hand

def ask_choices(cases, chance, caps_below):
    for goal in (0, 1):
        chosen = cases.choose(goal, 24)
        size = bin(chosen).count('1')
        caps = [25, chance.of((26, 255, 256, 2 ** 31, 2 ** 32 - 1))]
        if caps_below:
            caps += [0, size, chance.below(25)] + ([size - 1] if size else [])
        for cap in caps:
            cases.choose(goal, cap)


def some_sets(cases, chance):
    tests = cases.table.tests
    every = 2 ** min(tests, 24) - 1
    sets = [0, every, chance.below(2 ** 24) & every, chance.below(2 ** 24) & chance.below(2 ** 24) & every]
    if tests:
        sets.append(1 << chance.below(min(tests, 24)))
    return sets


def sets_beyond(cases, chance):
    tests = min(cases.table.tests, 24)
    return [1 << tests, 2 ** 31 | chance.below(2 ** 24), 2 ** 32 - 1, (1 << chance.below(32 - tests) + tests)]


def ask_sheets(cases, chance):
    table = cases.table
    k = len(ref.classes_of(table)) if ref.well_formed(table) else 3
    for chosen in some_sets(cases, chance):
        n = bin(chosen).count('1')
        for call, size in ((cases.dictionary, k * n), (cases.sheet, k * (k - 1) // 2)):
            for lent in sorted({size + 4, max(size - 1, 0), chance.of((0, size, size + 1))}):
                call(chosen, lent, chance.of((0xa5, 0, 255, chance.below(256))))
    beyond = chance.of(sets_beyond(cases, chance))
    cases.dictionary(beyond, chance.of((0, 2000)), 0x5a)
    cases.sheet(beyond, chance.of((0, 2000)), 0x5a)


def ask_suspects(cases, chance):
    table = cases.table
    for chosen in some_sets(cases, chance):
        tests = ref.tests_in(chosen)
        column = chance.below(min(table.faults, 60) + 1)
        outputs = [table.cells[(t % 24) * ref.COLUMNS + column] for t in tests]
        cases.suspects(chosen, outputs)
        if outputs:
            other = list(outputs)
            other[chance.below(len(other))] = chance.below(256)
            cases.suspects(chosen, other)
            cases.suspects(chosen, outputs[1:])
        cases.suspects(chosen, outputs + [chance.below(4)])
    cases.suspects(chance.of(sets_beyond(cases, chance)), [0] * chance.below(3))


def ask_all(cases, chance, caps_below=True):
    cases.questions()
    ask_choices(cases, chance, caps_below)
    ask_sheets(cases, chance)
    ask_suspects(cases, chance)


# ------------------------------------------------------------ kinds of cases

def small_size(chance):
    return chance.of((0, 1, 2, 3, 4, 5, 7, 9)), chance.of((0, 1, 2, 3, 4, 6, 9, 13))


def good_tables(cases, chance):
    for round_ in range(5):
        for style in STYLES:
            tests, faults = small_size(chance)
            cases.book(book_of(random_table(chance, tests, faults, style)))
            ask_all(cases, chance)
    for tests, faults in ((0, 0), (1, 0), (0, 1), (0, 60), (24, 0), (24, 1), (1, 60), (8, 20)):
        cases.book(book_of(random_table(chance, tests, faults, 'bits')))
        ask_all(cases, chance)
    cases.adder()
    ask_all(cases, chance)
    cases.empty()
    ask_all(cases, chance)


def large_tables(cases, chance):
    for tests, faults, style in ((24, 60, 'dense'), (24, 59, 'equal tests'), (23, 60, 'equal columns'),
                                 (24, 60, 'undetectable'), (14, 40, 'sparse'), (16, 25, 'lone'), (15, 60, 'bits')):
        cases.book(book_of(random_table(chance, tests, faults, style)))
        ask_all(cases, chance, caps_below=False)
    cases.book(book_of(longest()))
    ask_all(cases, chance)


def example_books(cases, chance):
    for name in EXAMPLES:
        with open(os.path.join(ROOT, 'examples', name + '.book'), 'rb') as file:
            cases.book(file.read())
        cases.questions()
        cases.choose(0, 24)
        # the reference tries every smaller set first, and here the choice has 23 tests
        if name != 'hard-comb':
            cases.choose(1, 24)
        ask_sheets(cases, chance)
        ask_suspects(cases, chance)


def spoiled(chance, table):
    """A table with one field spoiled, in each way in turn; some stay well formed."""
    tests, faults = table.tests, table.faults

    def ways():
        t = table.copy()
        t.tests = chance.of((25, 26, 61, 2 ** 32, LARGEST))
        yield t
        t = table.copy()
        t.faults = chance.of((61, 62, 255, 2 ** 32 + 3, LARGEST))
        yield t
        t = table.copy()
        t.tests = chance.of([n for n in (tests - 1, tests + 1) if 0 <= n <= 24])
        yield t
        t = table.copy()
        t.faults = chance.of([n for n in (faults - 1, faults + 1) if 0 <= n <= 60])
        yield t
        t = table.copy()
        t.stuck[chance.below(faults)] = 2 + chance.below(254)
        yield t
        t = table.copy()
        t.lines[0], t.stuck[0] = t.lines[faults - 1], t.stuck[faults - 1]
        yield t
        t = table.copy()
        t.cells[chance.below(tests) * ref.COLUMNS + faults + 1 + chance.below(60 - faults)] = 1 + chance.below(255)
        yield t
        t = table.copy()
        t.cells[(tests + chance.below(24 - tests)) * ref.COLUMNS + chance.below(61)] = 1 + chance.below(255)
        yield t
        t = table.copy()
        t.lines[faults + chance.below(60 - faults)] = 1 + chance.below(255)
        yield t
        t = table.copy()
        t.stuck[faults + chance.below(60 - faults)] = chance.of((1, 2, 255))
        yield t
        t = table.copy()
        t.cells[ref.CELLS - 1] = 1
        yield t
    return ways()


def spoiled_tables(cases, chance):
    for round_ in range(9):
        tests, faults = 1 + chance.below(7), 2 + chance.below(9)
        table = random_table(chance, tests, faults, STYLES[round_ % len(STYLES)])
        cases.fields(table)
        ask_all(cases, chance)
        for bad in spoiled(chance, table):
            cases.fields(bad)
            cases.questions()
            cases.choose(chance.below(2), chance.of((0, 3, 24, 25, 2 ** 32 - 1)))
            cases.dictionary(chance.of((0, 1, 2 ** 32 - 1)), chance.of((0, 40)), 7)
            cases.sheet(chance.of((0, 1, 2 ** 32 - 1)), chance.of((0, 40)), 7)
            cases.suspects(chance.of((0, 1, 2 ** 32 - 1)), [0] * chance.below(2))
            for stage in (('tests',), ('faults',), ('responses', chance.below(faults), chance.below(tests)), ('ended',)):
                cases.record(chance.below(4), stage, bytes([E, tests, faults]))


def rest(chance):
    """What may follow a wrong record: it is not read."""
    return bytes(chance.below(256) for _ in range(chance.of((0, 0, 1, 5))))


def small_book(chance):
    table = random_table(chance, 1 + chance.below(5), 1 + chance.below(6), chance.of(STYLES[:7]))
    return table, records_of(table)


def wrong_records(chance):
    """Books that a wrong record ends, of each kind in turn."""
    table, records = small_book(chance)
    tests, faults = table.tests, table.faults
    edge = chance.below(len(records))
    before = b''.join(records[:edge])
    kind = chance.of([k for k in range(256) if k not in ref.BODY_LENGTH])
    yield before + bytes([kind]) + rest(chance)
    yield before + records[edge][:1 + chance.below(len(records[edge]) - 1)]
    yield before
    heads = records[:tests + faults]
    answers = records[tests + faults:-1]
    after = chance.below(len(answers) + 1)
    yield b''.join(heads + answers[:after]) + bytes([T, chance.below(256)]) + rest(chance)
    if after:
        yield b''.join(heads + answers[:after]) + bytes([F, chance.below(256), chance.below(3)]) + rest(chance)
    yield b''.join(heads) + bytes([F, chance.below(256), 2 + chance.below(254)]) + rest(chance)
    yield b''.join(heads) + heads[tests + chance.below(faults)] + rest(chance)
    yield b''.join(heads + answers[:after]) + bytes([R, tests + chance.below(3), chance.below(faults), 0]) + rest(chance)
    yield b''.join(heads + answers[:after]) + bytes([R, chance.below(tests), faults + chance.below(3), 0]) + rest(chance)
    if after:
        yield b''.join(heads + answers[:after]) + answers[chance.below(after)] + rest(chance)
        yield b''.join(heads + answers[:after]) + bytes([R, 0, 0, chance.below(256)]) + rest(chance)
        fault, test = answers[after - 1][2], chance.below(answers[after - 1][1] + 1)
        yield b''.join(heads + answers[:after]) + bytes([R, test, fault, ref.cell(table, test, 0)]) + rest(chance)
        yield b''.join(heads + answers[:after]) + bytes([R, tests, 0, 0]) + rest(chance)
    yield b''.join(heads) + bytes([R, 0, faults - 1, ref.cell(table, 0, 0)]) + rest(chance)
    yield b''.join(records[:-1]) + bytes([E, tests + chance.below(2), faults + 1]) + rest(chance)
    yield b''.join(records[:-1]) + bytes([E, tests + 1, faults]) + rest(chance)
    yield b''.join(records[:-1]) + bytes([E, chance.below(256), chance.below(256)]) + rest(chance)
    yield b''.join(records) + bytes([chance.of((T, F, R, E, 0, 255))]) + rest(chance)


def too_many(chance):
    """A 25th test or a 61st fault, also cut short, out of place or badly labelled."""
    tests = b''.join(bytes([T, chance.below(256)]) for _ in range(24))
    faults = b''.join(bytes([F, line, line % 2]) for line in range(60))
    few = chance.below(4)
    yield tests + bytes([T, chance.below(256)]) + rest(chance)
    yield tests + bytes([T])
    yield tests + bytes([F, 1, 0, T, chance.below(256)])
    yield tests[:2 * few] + faults + bytes([F, chance.below(256), chance.below(3)]) + rest(chance)
    yield faults + bytes([F, 1, 1])
    yield faults + bytes([F, 1])
    yield tests + bytes([E, 24, 0])
    yield faults + bytes([E, 0, 60])


def damaged(chance, book):
    """A good book with a byte changed, left out, put in or cut off."""
    at = chance.below(len(book))
    way = chance.below(5)
    if way == 0:
        return book[:at] + bytes([chance.below(256)]) + book[at + 1:]
    if way == 1:
        return book[:at] + bytes([book[at] ^ 1 << chance.below(8)]) + book[at + 1:]
    if way == 2:
        return book[:at] + book[at + 1:]
    if way == 3:
        return book[:at] + bytes([chance.below(256)]) + book[at:]
    return book[:at]


def refused_books(cases, chance):
    for round_ in range(55):
        for book in wrong_records(chance):
            cases.book(book)
            if chance.one_in(8):
                cases.records(book)
    for round_ in range(27):
        for book in too_many(chance):
            cases.book(book)
    for kind in range(256):
        cases.book(bytes([kind]))
    for round_ in range(250):
        _, records = small_book(chance)
        book = damaged(chance, b''.join(records))
        cases.book(book)
        if chance.one_in(5):
            cases.records(book)


def whole_books(cases, chance):
    """The document's small books, good books, and those at the reader's limits."""
    small = ('', '4500', '450000', '45000045', '5407450100', '540046010052000001450101', '5400460100450101',
             '540046010052000000450101', '4601005400', '52000001', '450100', '460102', '4601', '46010054', '4600004500ff')
    for digits in small:
        cases.book(bytes.fromhex(digits))
        cases.questions()
        ask_choices(cases, chance, True)
        cases.records(bytes.fromhex(digits))
    for round_ in range(60):
        tests, faults = small_size(chance)
        book = book_of(random_table(chance, tests, faults, chance.of(STYLES)))
        cases.book(book)
        if len(book) < 200:
            cases.records(book)
    full = book_of(longest())
    assert len(full) == ref.LONGEST_BOOK
    for book in (full, full + b'E', full + bytes(100), full[:-1], full[:-3], full[:-3] + full[-4 - 3:]):
        cases.book(book)
    cases.records(full)
    cases.records(book_of(ref.full_adder()))


def next_records(chance, tests, faults):
    """Records that may come next, right or wrong."""
    yield bytes([T, chance.below(256)])
    yield bytes([F, chance.below(256), chance.below(2)])
    yield bytes([R, chance.below(tests + 1), chance.below(faults + 1), chance.below(4)])
    yield bytes([R, max(tests, 1) - 1, max(faults, 1) - 1, chance.below(256)])
    yield bytes([E, tests, faults])
    yield b''


def record_by_record(cases, chance):
    """Steps from readings so far that some start gives, and from others near them."""
    for round_ in range(26):
        table, records = small_book(chance)
        place, so_far = 0, ref.begin()
        for record in records[:chance.below(len(records) + 1)]:
            _, _, so_far = ref.read_record(record, 0, so_far)
        cases.book(book_of(so_far.table))
        tests, faults = so_far.table.tests, so_far.table.faults
        for record in next_records(chance, tests, faults):
            front = rest(chance)
            cases.record(len(front), so_far.stage, front + record + rest(chance))
        stages = [('tests',), ('faults',), ('ended',)]
        stages += [('responses', chance.below(faults + 1), chance.below(tests + 1)) for _ in range(3)]
        stages += [('responses', LARGEST, 0), ('responses', 0, LARGEST), ('responses', faults, 0), ('responses', 0, tests)]
        for stage in stages:
            book = chance.of(list(next_records(chance, tests, faults)))
            cases.record(0, stage, book)
        book = bytes([E, tests, faults])
        for place in (0, 1, 2, 3, 4, 2 ** 32, LARGEST):
            cases.record(place, so_far.stage, book)
            cases.record(place, ('ended',), book)
    cases.empty()
    for place in (0, 1, LARGEST):
        for stage in (('tests',), ('faults',), ('responses', 0, 0), ('ended',)):
            cases.record(place, stage, b'')


def long_text():
    """Each fault differs in one test, and the choice needs every test."""
    table = ref.empty_table()
    table.tests, table.faults = 17, ref.MAX_FAULTS
    for t in range(table.tests):
        for c in range(table.faults + 1):
            table.cells[t * ref.COLUMNS + c] = 100 + t
    for f in range(table.faults):
        table.lines[f], table.stuck[f] = 190 + f, f % 2
        table.cells[f % table.tests * ref.COLUMNS + f + 1] = 200 + f % 50
    return table


def reports(cases, chance):
    """The text of good books and of wrong ones, in buffers short, exact and long."""
    books = [b'', book_of(longest()), book_of(longest()) + b'E', book_of(long_text()), book_of(ref.full_adder())]
    for style in STYLES * 4:
        tests, faults = small_size(chance)
        books.append(book_of(random_table(chance, tests, faults, style)))
        books.append(damaged(chance, books[-1]))
    books += wrong_records(chance)
    for book in books:
        size = len(ref.report(book))
        for lent in sorted({size, size - 1, size + 4, chance.of((0, 1))}):
            cases.report(book, lent, chance.of((0xa5, 0, 255, 10)))


def make():
    cases, chance = Cases(), Chance(1968)
    whole_books(cases, chance)
    refused_books(cases, chance)
    record_by_record(cases, chance)
    good_tables(cases, chance)
    spoiled_tables(cases, chance)
    large_tables(cases, chance)
    reports(cases, chance)
    example_books(cases, chance)
    return cases


# -------------------------------------------------------------------- files

def main(words):
    cases = make()
    few = [n for n in REFUSALS if cases.refused[n] < LEAST_OF_EACH]
    if len(cases.lines) > 10000 or few:
        sys.exit('%d cases; too few of the refusals %s' % (len(cases.lines), few))
    crate = os.path.join(ROOT, 'crates', 'vectors')
    made = {os.path.join(crate, 'data', 'cases'): bytes(cases.data),
            os.path.join(crate, 'stdout'): ('\n'.join(cases.lines) + '\n').encode()}
    if words == ['--check']:
        for path, content in made.items():
            with open(path, 'rb') as file:
                if file.read() != content:
                    sys.exit('%s is not what tests/vectors/make.py makes' % os.path.relpath(path, ROOT))
        least = min(cases.refused.values())
        print('tests/vectors: %d cases, each refusal at least %d times, as the reference answers them'
              % (len(cases.lines), least))
        return
    for path, content in made.items():
        os.makedirs(os.path.dirname(path), exist_ok=True)
        with open(path, 'wb') as file:
            file.write(content)
    print('%d cases, %d bytes, %d bytes of answers' % (len(cases.lines), *map(len, made.values())))
    print('refusals: ' + ', '.join('%d: %d' % item for item in cases.refused.items()))


if __name__ == '__main__':
    main(sys.argv[1:])
