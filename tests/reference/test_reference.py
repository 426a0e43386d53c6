"""Self-test on the paper's examples and on edge cases of its rules."""

import functools
import random
import sys

import tockbronze_reference as r

passed = 0
failed = 0


def check(name, got, expected):
    global passed, failed
    if got == expected:
        passed += 1
    else:
        failed += 1
        print('FAILED %s\n  got      %r\n  expected %r' % (name, got, expected))


def b(text):
    return bytes.fromhex(text)


def bits(*tests):
    return r.set_of(tests)


def table_of(correct, faults, columns):
    """A table from correct outputs, labels and each fault's outputs."""
    table = r.empty_table()
    table.tests, table.faults = len(correct), len(faults)
    for f, (line, stuck) in enumerate(faults):
        table.lines[f], table.stuck[f] = line, stuck
    for t in range(table.tests):
        table.cells[t * 61] = correct[t]
        for f in range(table.faults):
            table.cells[t * 61 + f + 1] = columns[f][t]
    return table


def parts_of(table):
    """Tests, faults and responses of a table's book, record by record."""
    tests = [bytes([0x54, r.cell(table, t, 0)]) for t in range(table.tests)]
    faults = [bytes([0x46, table.lines[f], table.stuck[f]])
              for f in range(table.faults)]
    responses = [(f, t, bytes([0x52, t, f, r.cell(table, t, f + 1)]))
                 for f in range(table.faults) for t in range(table.tests)
                 if r.cell(table, t, f + 1) != r.cell(table, t, 0)]
    return tests, faults, responses


def end_of(table):
    return bytes([0x45, table.tests, table.faults])


def book_of(table):
    tests, faults, responses = parts_of(table)
    return (b''.join(tests) + b''.join(faults)
            + b''.join(record for _, _, record in responses) + end_of(table))


def refused(text, number, place):
    check('refused ' + text, r.read_book(b(text)),
          (number, place, r.empty_table()))
    check('report of ' + text, r.report(b(text)),
          b'refused %d at %d\n' % (number, place))


def accepted(name, data):
    number, place, table = r.read_book(data)
    check(name + ' accepted', (number, place), (0, len(data)))
    check(name + ' well formed', r.well_formed(table), True)
    check(name + ' written again', book_of(table), bytes(data))
    return table


def choices(name, table, detect, diagnose):
    check(name + ' detect', r.choose(table, 'detect', 24), (0, detect))
    check(name + ' diagnose', r.choose(table, 'diagnose', 24), (0, diagnose))


def small_table(rng, max_tests=6, max_faults=6, values=3, change=0.4):
    tests, faults = rng.randint(0, max_tests), rng.randint(0, max_faults)
    labels = rng.sample([(line, s) for line in range(8) for s in (0, 1)],
                        faults)
    correct = [rng.randrange(values) for _ in range(tests)]
    columns = [[rng.randrange(values) if rng.random() < change else correct[t]
                for t in range(tests)] for _ in range(faults)]
    return table_of(correct, labels, columns)


# ------------------------------------------------------------- small books

def small_books():
    table = accepted('45 00 00', b('45 00 00'))
    check('no columns but the healthy one', r.classify(table),
          (0, 1, [0] * 61))
    check('the empty table', table, r.empty_table())
    choices('45 00 00', table, 0, 0)
    check('45 00 00 report', r.report(b('45 00 00')),
          b'tests 0 faults 0 classes 1\naside none\nessential none\n'
          b'detect none\ndiagnose none\nclass 0 : none : good\n')

    table = accepted('one test', b('54 07 45 01 00'))
    choices('one test', table, 0, 0)
    for goal in ('detect', 'diagnose'):
        check('one test aside', r.set_aside(table, goal), (0, bits(0)))
        check('one test essential', r.essential(table, goal), (0, 0))
    check('one test report', r.report(b('54 07 45 01 00')),
          b'tests 1 faults 0 classes 1\naside 0\nessential none\n'
          b'detect none\ndiagnose none\nclass 0 : none : good\n')

    third = b('54 00 46 01 00 52 00 00 01 45 01 01')
    table = accepted('third', third)
    choices('third', table, bits(0), bits(0))
    for goal in ('detect', 'diagnose'):
        check('third cap 0', r.choose(table, goal, 0), (23, 0))
        check('third cap 1', r.choose(table, goal, 1), (0, bits(0)))
        check('third cap 24', r.choose(table, goal, 24), (0, bits(0)))
        check('third cap 25', r.choose(table, goal, 25), (22, 0))
    check('third report', r.report(third),
          b'tests 1 faults 1 classes 2\naside none\nessential 0\n'
          b'detect 0\ndiagnose 0\nclass 0 : 0 : good\nclass 1 : 1 : 1/0\n')

    table = accepted('no response', b('54 00 46 01 00 45 01 01'))
    check('no response classes', r.classify(table), (0, 1, [0] * 61))
    choices('no response', table, 0, 0)
    check('no response undetectable', r.undetectable(table), (0, 1))
    check('no response cap 0', r.choose(table, 'diagnose', 0), (0, 0))

    table = table_of([0, 0], [(1, 0), (1, 1)], [[1, 1], [1, 2]])
    accepted('two tests a b', book_of(table))
    choices('two tests a b', table, bits(0), bits(1))
    check('two tests a b aside', r.set_aside(table, 'diagnose'), (0, 0))
    check('two tests a b aside', r.set_aside(table, 'detect'), (0, bits(1)))
    check('two tests a b essential', r.essential(table, 'diagnose'), (0, 0))
    check('two tests a b essential', r.essential(table, 'detect'),
          (0, bits(0)))

    table = table_of([5, 5], [(1, 0)], [[6, 6]])
    choices('two equal', table, bits(0), bits(0))
    for goal in ('detect', 'diagnose'):
        check('two equal aside', r.set_aside(table, goal), (0, bits(1)))

    seen = [(1, 1, 0), (1, 1, 0), (0, 1, 0), (1, 0, 1), (1, 0, 1), (0, 0, 1)]
    table = table_of([0, 0, 0], [(i, 0) for i in range(6)], seen)
    check('six faults', r.choose(table, 'detect', 24), (0, bits(1, 2)))
    check('six faults cap 1', r.choose(table, 'detect', 1), (23, 0))

    refused('', 3, 0)
    refused('45 00', 2, 0)
    refused('45 00 00 45', 12, 3)
    refused('46 01 00 54 00', 4, 3)
    refused('52 00 00 01', 8, 0)
    refused('45 01 00', 11, 0)
    refused('46 01 02', 6, 0)
    refused('46 01', 2, 0)
    refused('54 00 46 01 00 52 00 00 00 45 01 01', 10, 5)


# -------------------------------------------------- refusals of the reader

def reader_refusals():
    for kind in range(256):
        if kind not in (0x54, 0x46, 0x52, 0x45):
            check('kind %d' % kind, r.read_book(bytes([kind, 0, 0, 0]))[:2],
                  (1, 0))
    refused('00', 1, 0)
    refused('54 00 00', 1, 2)
    refused('54', 2, 0)
    refused('46', 2, 0)
    refused('52', 2, 0)
    refused('52 00', 2, 0)
    refused('52 00 00', 2, 0)
    refused('45', 2, 0)
    refused('54 00', 3, 2)
    refused('54 00 46 01 00', 3, 5)
    refused('54 00 46 01 00 52 00 00 01', 3, 9)
    # "Within a record the order is that of this list."
    refused('46 01 00 54', 2, 3)
    refused('54 00 46 01 00 52 00 00 01 46 02 07', 4, 9)
    refused('54 00 46 01 00 52 00 00 01 54 00', 4, 9)
    refused('54 00 46 01 00 46 01 02', 6, 5)
    refused('54 00 46 01 00 46 01 00', 7, 5)
    check('other value', r.read_book(b('46 01 00 46 01 01 45 00 02'))[:2],
          (0, 9))
    refused('54 00 46 01 00 52 01 00 01', 8, 5)
    refused('54 00 46 01 00 52 00 01 01', 8, 5)
    refused('54 00 52 00 00 01', 8, 2)
    refused('54 00 46 01 00 52 00 00 01 52 00 00 02', 9, 9)
    refused('54 00 46 01 00 52 00 00 01 52 00 00 00', 9, 9)
    refused('54 00 46 01 00 52 00 00 01 52 00 01 00', 8, 9)
    refused('54 00 54 00 46 01 00 52 01 00 01 52 00 00 01', 9, 11)
    refused('54 00 54 00 46 01 00 46 01 01 52 00 01 01 52 01 00 01', 9, 14)
    check('fault first', r.read_book(
        b('54 00 54 00 46 01 00 46 01 01 52 01 00 01 52 00 01 01 45 02 02')
        )[:2], (0, 21))
    refused('54 00 46 01 00 45 01 00', 11, 5)
    refused('54 00 46 01 00 45 00 01', 11, 5)
    refused('45 01 00 45', 11, 0)
    refused('45 00 00 00', 12, 3)
    refused('45 00 00 45 00 00', 12, 3)

    accepted('24 tests', b('54 00') * 24 + b('45 18 00'))
    check('25 tests', r.read_book(b('54 00') * 25 + b('45 19 00')),
          (5, 48, r.empty_table()))
    faults = b''.join(bytes([0x46, 200 + f // 2, f % 2]) for f in range(61))
    accepted('60 faults', faults[:180] + b('45 00 3c'))
    check('61 faults', r.read_book(faults + b('45 00 3d')),
          (5, 180, r.empty_table()))
    # 5 comes before 6 and 7, 2 before 5, 4 before 5.
    check('61st stuck', r.read_book(faults[:180] + b('46 01 09'))[:2], (5, 180))
    check('61st same', r.read_book(faults[:180] + faults[:3])[:2], (5, 180))
    check('61st cut', r.read_book(faults[:180] + b('46 01'))[:2], (2, 180))
    check('25th late', r.read_book(b('54 00') * 24 + b('46 01 00 54 00'))[:2],
          (4, 51))

    # "The longest book has 5,991 bytes, and the first 5,992 bytes of any
    # input settle the reader's answer."
    longest = table_of([7] * 24, [(f, f % 2) for f in range(60)],
                       [[8 + f] * 24 for f in range(60)])
    data = book_of(longest)
    check('longest length', len(data), 5991)
    check('longest', r.read_book(data), (0, 5991, longest))
    check('longest and one', r.read_book(data + b'\x00')[:2], (12, 5991))
    check('one more response', r.read_book(data[:5988] + b('52 17 3b 09'))[:2],
          (9, 5988))
    check('end too late', r.read_book(data[:5988])[:2], (3, 5988))
    rng = random.Random(3)
    for _ in range(20):
        more = bytearray(data)
        for _ in range(rng.randint(0, 1)):
            more[rng.randrange(len(more))] = rng.randrange(256)
        more = bytes(more) + bytes(rng.randrange(256) for _ in range(20))
        check('settled', r.read_book(more), r.read_book(more[:5992]))


# ---------------------------------------------------------- record by record

def replay(so_far):
    """Whether the only start that could give a reading so far does give it.

    A table fixes its tests, its faults and its responses, so that start is
    fixed by the table and by whether the end has come."""
    tests, faults, responses = parts_of(so_far.table)
    data = b''.join(tests) + b''.join(faults)
    data += b''.join(record for _, _, record in responses)
    if so_far.stage == ('ended',):
        data += end_of(so_far.table)
    place, reached = 0, r.begin()
    while place < len(data):
        outcome, place, reached = r._step(data, place, reached)
        if outcome[0] != 'record':
            return False
    return reached == so_far


def record_by_record():
    data = b('54 07 54 08 46 01 00 52 01 00 09 45 02 01')
    expected = [
        (('record', 0x54, b('07')), 2, ('tests',)),
        (('record', 0x54, b('08')), 4, ('tests',)),
        (('record', 0x46, b('01 00')), 7, ('faults',)),
        (('record', 0x52, b('01 00 09')), 11, ('responses', 0, 1)),
        (('record', 0x45, b('02 01')), 14, ('ended',)),
        (('accepted',), 14, ('ended',)),
        (('accepted',), 14, ('ended',)),
    ]
    place, so_far = 0, r.begin()
    states = [so_far]
    for outcome, next_place, stage in expected:
        before = r.SoFar(so_far.table.copy(), so_far.stage)
        got, place, after = r.read_record(data, place, so_far)
        check('record', (got, place, after.stage), (outcome, next_place, stage))
        check('what went in stays', so_far, before)
        so_far = after
        states.append(so_far)
    check('its table', so_far.table, r.read_book(data)[2])
    check('correct so far', so_far.table.cells[:2], [7, 7])
    check('and the response', so_far.table.cells[61:63], [8, 9])

    # Any place up to the length is taken.
    for state in states:
        ended = state.stage == ('ended',)
        check('at the length', r.read_record(b'', 0, state),
              (('accepted',), 0, state) if ended
              else (('refused', 3), 0, r.begin()))
        check('past the length', r.read_record(b'', 1, state),
              (('refused', 20), 1, r.begin()))
        check('past the length', r.read_record(data, 15, state),
              (('refused', 20), 15, r.begin()))
        check('a wrong kind', r.read_record(b('45 00'), 1, state),
              (('refused', 12 if ended else 1), 1, r.begin()))
    check('another place', r.read_record(data, 4, r.begin())[:2],
          (('record', 0x46, b('01 00')), 7))
    check('a byte after the end',
          r.read_record(data + b'\x45', 14, states[-1]),
          (('refused', 12), 14, r.begin()))
    # The same line and value as in what was read, wherever it was read.
    check('same fault', r.read_record(b('46 01 00'), 0, states[3]),
          (('refused', 7), 0, r.begin()))

    # Readings so far that no start of any book gives.
    def never(name, table, stage, place=0, data=b''):
        check(name, r.read_record(data, place, r.SoFar(table, stage)),
              (('refused', 20), place, r.begin()))
    one = table_of([0, 0], [(1, 0)], [[1, 1]])
    plain = table_of([0, 0], [(1, 0)], [[0, 0]])
    tests = table_of([0, 0], [], [])
    never('tests with a fault', plain, ('tests',))
    never('faults without one', tests, ('faults',))
    never('faults without one', r.empty_table(), ('faults',))
    never('faults with a response', one, ('faults',))
    never('the last is earlier', one, ('responses', 0, 0))
    never('the last is no response', plain, ('responses', 0, 1))
    never('no such test', one, ('responses', 0, 2))
    never('no such fault', one, ('responses', 1, 1))
    never('no such stage', one, ('sometime',))
    for stage in (('tests',), ('faults',), ('responses', 0, 1), ('ended',)):
        for spoil in (lambda t: t.cells.__setitem__(2, 1),
                      lambda t: t.cells.__setitem__(1463, 1),
                      lambda t: t.lines.__setitem__(59, 1),
                      lambda t: t.stuck.__setitem__(0, 2),
                      lambda t: setattr(t, 'tests', 25),
                      lambda t: setattr(t, 'faults', 61)):
            table = one.copy()
            spoil(table)
            never('not well formed', table, stage)
            # "before any other number"
            never('not well formed', table, stage, 0, b'\x00')
    for good, stage in ((r.empty_table(), ('tests',)), (tests, ('tests',)),
                        (plain, ('faults',)), (one, ('responses', 0, 1)),
                        (r.empty_table(), ('ended',)), (tests, ('ended',)),
                        (plain, ('ended',)), (one, ('ended',))):
        check('a start gives it',
              r.some_start_gives(r.SoFar(good, stage)), True)

    rng = random.Random(1)
    good = 0
    for _ in range(3000):
        table = small_table(rng, 3, 3, 2, rng.choice((0, 0.2, 0.6)))
        if rng.random() < 0.2:
            table.cells[rng.choice((0, 1, 2, 3, 61, 62, 122))] = 1
        stage = rng.choice((('tests',), ('faults',), ('ended',),
                            ('responses', rng.randint(0, 3),
                             rng.randint(0, 3))))
        so_far = r.SoFar(table, stage)
        check('some start gives', r.some_start_gives(so_far), replay(so_far))
        good += replay(so_far)
    check('both answers occur', 0 < good < 3000, True)

    # "from the book's start the answers are the same"
    for _ in range(200):
        data = bytearray(book_of(small_table(rng)))
        if rng.random() < 0.7:
            data[rng.randrange(len(data))] = rng.choice(
                (0, 1, 2, 0x54, 0x46, 0x52, 0x45))
        data = bytes(data[:rng.randint(0, len(data) + 3)])
        place, so_far = 0, r.begin()
        while True:
            outcome, place, so_far = r.read_record(data, place, so_far)
            if outcome[0] != 'record':
                break
        number = 0 if outcome[0] == 'accepted' else outcome[1]
        check('same answers', (number, place, so_far.table),
              r.read_book(data))


# ---------------------------------------------------------------- the table

def tables():
    check('empty', r.well_formed(r.empty_table()), True)
    check('1,464 cells', r.empty_table().cells, [0] * 1464)
    sound = table_of([1, 2], [(3, 0), (3, 1)], [[1, 1], [2, 2]])
    check('sound', r.well_formed(sound), True)

    def bad(name, change):
        table = sound.copy()
        change(table)
        check(name, r.well_formed(table), False)
        # 20 comes first, with the values of a refused call.
        buffer = bytearray(b'\xaa' * 4)
        check(name, r.classify(table), (20, 0, [0] * 61))
        check(name, r.undetectable(table), (20, 0))
        for goal in ('detect', 'diagnose'):
            check(name, r.set_aside(table, goal), (20, 0))
            check(name, r.essential(table, goal), (20, 0))
            check(name, r.choose(table, goal, 25), (20, 0))
        check(name, r.dictionary(table, 1 << 31, buffer), (20, 0))
        check(name, r.witness_sheet(table, 1 << 31, buffer), (20, 0))
        check(name, r.suspects_of(table, 1 << 31, b'123'),
              (20, 0, [0] * 61))
        check(name, buffer, bytearray(b'\xaa' * 4))

    for count in (25, 61, 62, 255, 256, 2 ** 32, 2 ** 64, -1):
        bad('tests', lambda t: setattr(t, 'tests', count))
        bad('faults', lambda t: setattr(t, 'faults', count))
    bad('one test fewer', lambda t: setattr(t, 'tests', 1))
    bad('one fault fewer', lambda t: setattr(t, 'faults', 1))
    bad('a third fault', lambda t: t.lines.__setitem__(2, 1))
    bad('a third value', lambda t: t.stuck.__setitem__(2, 1))
    bad('stuck at 2', lambda t: t.stuck.__setitem__(0, 2))
    bad('same label', lambda t: t.stuck.__setitem__(1, 0))
    bad('cell past the faults', lambda t: t.cells.__setitem__(3, 1))
    bad('cell past the tests', lambda t: t.cells.__setitem__(122, 1))
    bad('last cell', lambda t: t.cells.__setitem__(1463, 1))
    bad('no byte', lambda t: t.cells.__setitem__(0, 256))
    more = sound.copy()
    more.tests, more.faults = 24, 3
    check('more tests', r.well_formed(more), True)
    # The label 0/0 of a third and a fourth fault is the same.
    more.faults = 4
    check('twice 0/0', r.well_formed(more), False)


# ----------------------------------------- calls with a set and with buffers

def calls():
    # Columns: 0 good, 1 as good, 2 and 4 alike, 3 its own.
    table = table_of([0, 5, 9], [(1, 0), (2, 0), (3, 0), (4, 1)],
                     [[0, 5, 9], [1, 5, 9], [1, 6, 9], [1, 5, 9]])
    check('classes', r.classify(table),
          (0, 3, [0, 0, 1, 2, 1] + [0] * 56))
    check('undetectable', r.undetectable(table), (0, 1))
    check('aside', r.set_aside(table, 'diagnose'), (0, bits(2)))
    check('essential', r.essential(table, 'diagnose'), (0, bits(0)))

    def both(name, chosen, dictionary, sheet):
        for call, answer in ((r.dictionary, dictionary),
                             (r.witness_sheet, sheet)):
            for extra in (0, 1, 7):
                buffer = bytearray(b'\xaa' * (len(answer) + extra))
                check(name, call(table, chosen, buffer), (0, len(answer)))
                check(name, bytes(buffer), answer + b'\xaa' * extra)
            for short in range(len(answer)):
                buffer = bytearray(b'\xaa' * short)
                check(name, call(table, chosen, buffer), (24, 0))
                check(name, bytes(buffer), b'\xaa' * short)
    both('no test', 0, b'', b'\xff\xff\xff')
    both('test 0', bits(0), bytes([0, 1, 1]), bytes([0, 0, 255]))
    both('test 1', bits(1), bytes([5, 5, 6]), bytes([255, 1, 1]))
    both('tests 0 1', bits(0, 1), bytes([0, 5, 1, 5, 1, 6]),
         bytes([0, 0, 1]))
    both('tests 0 1 2', bits(0, 1, 2),
         bytes([0, 5, 9, 1, 5, 9, 1, 6, 9]), bytes([0, 0, 1]))

    for chosen in (8, 9, 1 << 23, 1 << 24, 1 << 31, 2 ** 32 - 1):
        for buffer in (bytearray(), bytearray(b'\xaa' * 99)):
            kept = bytes(buffer)
            check('21', r.dictionary(table, chosen, buffer), (21, 0))
            check('21', r.witness_sheet(table, chosen, buffer), (21, 0))
            check('21', bytes(buffer), kept)
        check('21', r.suspects_of(table, chosen, b''), (21, 0, [0] * 61))

    def suspects(chosen, outputs, number, columns):
        check('suspects', r.suspects_of(table, chosen, outputs),
              (number, len(columns), columns + [0] * (61 - len(columns))))
    suspects(0, b'', 0, [0, 1, 2, 3, 4])
    suspects(0, b'\x00', 25, [])
    suspects(bits(0), b'', 25, [])
    suspects(bits(0), b'\x00\x05', 25, [])
    suspects(bits(0), b'\x00', 0, [0, 1])
    suspects(bits(0), b'\x01', 0, [2, 3, 4])
    suspects(bits(0), b'\x02', 0, [])
    suspects(bits(0, 1), b'\x01\x05', 0, [2, 4])
    suspects(bits(0, 1), b'\x05\x01', 0, [])
    suspects(bits(0, 1, 2), [1, 6, 9], 0, [3])

    # All of 24 tests, and all of 61 columns.
    full = table_of(list(range(24)), [(f, 1) for f in range(60)],
                    [[100 + f] * 24 for f in range(60)])
    buffer = bytearray(1464)
    check('24 tests', r.dictionary(full, 2 ** 24 - 1, buffer), (0, 1464))
    check('24 tests', bytes(buffer), bytes(range(24))
          + b''.join(bytes([100 + f]) * 24 for f in range(60)))
    check('bit 24', r.dictionary(full, 2 ** 24, buffer), (21, 0))
    check('sheet', r.witness_sheet(full, bits(23), bytearray(1829)), (24, 0))
    buffer = bytearray(1831)
    check('sheet', r.witness_sheet(full, bits(23), buffer), (0, 1830))
    check('sheet', bytes(buffer), b'\x17' * 1830 + b'\x00')
    check('every column', r.suspects_of(full, 0, b''),
          (0, 61, list(range(61))))
    check('cap 24', r.choose(full, 'diagnose', 24), (0, 1))
    check('cap 25', r.choose(full, 'diagnose', 25), (22, 0))


# --------------------------------------------------------------- the choice

def comes_first(a, c):
    """"the set that holds the lowest test number in which the two differ
    comes first", after the smaller size."""
    if bin(a).count('1') != bin(c).count('1'):
        return bin(a).count('1') - bin(c).count('1')
    if a == c:
        return 0
    differ = a ^ c
    lowest = differ & -differ
    return -1 if a & lowest else 1


def the_choice():
    rng = random.Random(2)
    for _ in range(300):
        table = small_table(rng)
        subsets = sorted(range(1 << table.tests),
                         key=functools.cmp_to_key(comes_first))
        for goal in ('detect', 'diagnose'):
            pairs = r.goal_pairs(table, goal)
            first = next(s for s in subsets if all(
                any(s >> t & 1 and r.separates(table, t, x, y)
                    for t in range(table.tests)) for (x, y) in pairs))
            size = bin(first).count('1')
            for cap in range(26):
                check('choice', r.choose(table, goal, cap),
                      (22, 0) if cap > 24 else
                      (23, 0) if cap < size else (0, first))
            # Striking out the set-aside tests leaves the choice.
            check('no set-aside test', first & r.set_aside(table, goal)[1], 0)
    # "Setting aside a low-numbered test because a higher one separates more.
    # The size stays; the first set doesn't."
    table = table_of([0, 0, 0], [(1, 0), (2, 0), (3, 0)],
                     [[1, 1, 0], [0, 1, 1], [0, 0, 1]])
    check('low kept', r.set_aside(table, 'detect'), (0, 0))
    check('low kept', r.choose(table, 'detect', 24), (0, bits(0, 2)))
    # Nine single faults among 24 tests.
    table = table_of([0] * 24, [(t, 0) for t in range(9)],
                     [[1 if t == 15 + f else 0 for t in range(24)]
                      for f in range(9)])
    nine = bits(*range(15, 24))
    choices('nine', table, nine, nine)
    check('nine cap 8', r.choose(table, 'detect', 8), (23, 0))


# ----------------------------------------------------------- the full adder

def gates(test, stuck_line, stuck_value):
    """Lines 1 to 5 of the paper's adder, one of them stuck or none."""
    def line(number, value):
        return stuck_value if number == stuck_line else value
    # "Test t is X, Y, carry in as a three-bit number, X highest."
    x, y, carry = test >> 2 & 1, test >> 1 & 1, test & 1
    line_1 = line(1, x ^ y)
    line_2 = line(2, x & y)
    line_3 = line(3, line_1 ^ carry)
    line_4 = line(4, line_1 & carry)
    line_5 = line(5, line_2 | line_4)
    # "Output is 2 x sum + carry out"
    return 2 * line_3 + line_5


ADDER_TEXT = b"""\
tests 8 faults 10 classes 9
aside 4 5
essential 3
detect 0 3 7
diagnose 0 3 7
class 0 : 0 1 3 : good
class 1 : 2 1 1 : 1/1
class 2 : 1 1 3 : 2/1 4/1 5/1
class 3 : 2 3 3 : 3/1
class 4 : 0 2 3 : 1/0
class 5 : 0 1 2 : 2/0
class 6 : 0 1 1 : 3/0
class 7 : 0 0 3 : 4/0
class 8 : 0 0 2 : 5/0
"""


def the_full_adder():
    correct = [gates(t, None, None) for t in range(8)]
    check('correct outputs', correct, [0, 2, 2, 1, 2, 1, 1, 3])
    labels = [(n, 1) for n in range(1, 6)] + [(n, 0) for n in range(1, 6)]
    table = table_of(correct, labels, [[gates(t, n, v) for t in range(8)]
                                       for n, v in labels])
    check('built in', r.full_adder(), table)
    check('36 responses', len(r.ADDER_RESPONSES), 36)
    check('its records', [(t, f, record[3])
                          for f, t, record in parts_of(table)[2]],
          list(r.ADDER_RESPONSES))
    data = book_of(table)
    check('193 bytes', len(data), 193)
    check('read', r.read_book(data), (0, 193, table))
    check('pick', r.report(data), ADDER_TEXT)
    check('aside', r.set_aside(table, 'diagnose'), (0, bits(4, 5)))
    check('essential', r.essential(table, 'diagnose'), (0, bits(3)))
    choices('adder', table, bits(0, 3, 7), bits(0, 3, 7))
    check('cap 2', r.choose(table, 'detect', 2), (23, 0))
    check('cap 3', r.choose(table, 'detect', 3), (0, bits(0, 3, 7)))
    check('classes', r.classify(table),
          (0, 9, [0, 1, 2, 3, 2, 2, 4, 5, 6, 7, 8] + [0] * 50))
    check('undetectable', r.undetectable(table), (0, 0))
    buffer = bytearray(27)
    check('dictionary', r.dictionary(table, bits(0, 3, 7), buffer), (0, 27))
    check('dictionary', list(buffer),
          [0, 1, 3, 2, 1, 1, 1, 1, 3, 2, 3, 3, 0, 2, 3, 0, 1, 2, 0, 1, 1,
           0, 0, 3, 0, 0, 2])
    buffer = bytearray(36)
    check('sheet', r.witness_sheet(table, bits(0, 3, 7), buffer), (0, 36))
    check('sheet', 255 in buffer, False)
    check('suspects', r.suspects_of(table, bits(0, 3, 7), [1, 1, 3])[:2],
          (0, 3))


small_books()
reader_refusals()
record_by_record()
tables()
calls()
the_choice()
the_full_adder()
print('%d passed, %d failed' % (passed, failed))
sys.exit(1 if failed else 0)
