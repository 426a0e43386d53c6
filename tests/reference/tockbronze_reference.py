"""The required selection of test vectors and its rules, done plainly.

Quoted sentences in the comments are those of the paper 01-scope.md.
Every answer is worked out from its definition, with no attempt at speed.
"""

import itertools
import sys
from dataclasses import dataclass

# "At most 24 tests and 60 faults, both numbered from 0 in book order."
MAX_TESTS = 24
MAX_FAULTS = 60
# "A column is the healthy card (column 0) or fault f (column f + 1)."
COLUMNS = MAX_FAULTS + 1
# "A table has 1,464 cells, all zero in an empty table (24 rows of 61)."
CELLS = MAX_TESTS * COLUMNS
# "The longest book has 5,991 bytes, and the first 5,992 bytes of any input
# settle the reader's answer."
LONGEST_BOOK = 5991
SETTLING_BYTES = 5992

# "A record is one byte of kind, then a body whose length the kind fixes."
TEST = 0x54      # 1 byte:  next test: its correct output
FAULT = 0x46     # 2 bytes: next fault: line, stuck value
RESPONSE = 0x52  # 3 bytes: response: test, fault, output
END = 0x45       # 2 bytes: end: number of tests, number of faults
BODY_LENGTH = {TEST: 1, FAULT: 2, RESPONSE: 3, END: 2}


# ---------------------------------------------------------------- the table

@dataclass
class Table:
    tests: int
    faults: int
    cells: list   # CELLS numbers; test t, column c at t * COLUMNS + c
    lines: list   # MAX_FAULTS line numbers
    stuck: list   # MAX_FAULTS stuck values

    def copy(self):
        return Table(self.tests, self.faults, list(self.cells),
                     list(self.lines), list(self.stuck))


def empty_table():
    return Table(0, 0, [0] * CELLS, [0] * MAX_FAULTS, [0] * MAX_FAULTS)


def cell(table, test, column):
    return table.cells[test * COLUMNS + column]


def well_formed(table):
    """"A table is well formed when its counts are within the sizes, its stuck
    values are 0 or 1, no two faults have the same line and value, and every
    unused cell and label is zero.  Those are the tables that some book
    gives, and no others." """
    # The shape of the arrays, and "An output is one byte", "a line number
    # (0 to 255)": a list can hold more than a book can, so it is tested too.
    if len(table.cells) != CELLS:
        return False
    if len(table.lines) != MAX_FAULTS or len(table.stuck) != MAX_FAULTS:
        return False
    if not all(0 <= value <= 255 for value in table.cells):
        return False
    if not all(0 <= line <= 255 for line in table.lines):
        return False
    # "its counts are within the sizes"
    if not 0 <= table.tests <= MAX_TESTS:
        return False
    if not 0 <= table.faults <= MAX_FAULTS:
        return False
    # "its stuck values are 0 or 1"
    if not all(value in (0, 1) for value in table.stuck):
        return False
    # "no two faults have the same line and value"
    for f in range(table.faults):
        for g in range(f):
            if (table.lines[f] == table.lines[g]
                    and table.stuck[f] == table.stuck[g]):
                return False
    # "every unused cell and label is zero"
    for test in range(MAX_TESTS):
        for column in range(COLUMNS):
            used = test < table.tests and column <= table.faults
            if not used and cell(table, test, column) != 0:
                return False
    for fault in range(table.faults, MAX_FAULTS):
        if table.lines[fault] != 0 or table.stuck[fault] != 0:
            return False
    return True


# --------------------------------------------------------------- the reader

@dataclass
class SoFar:
    """"what has been read so far goes in and comes back beside it"

    The table is the one that the records read so far give when an end
    follows them: a fault's column holds the correct outputs at once, for "A
    response that is not given equals the correct output."

    The stage is one of
      ('tests',)                   nothing yet, or only tests
      ('faults',)                  the last record was a fault
      ('responses', fault, test)   the last record was that response
      ('ended',)                   the last record was the end
    """
    table: Table
    stage: tuple


def begin():
    return SoFar(empty_table(), ('tests',))


def some_start_gives(so_far):
    """Whether some start of a book gives this reading so far."""
    table, stage = so_far.table, so_far.stage
    # Each start that is not refused becomes a book by adding an end with the
    # counts read, and that book gives this very table.
    if not well_formed(table):
        return False
    if stage == ('tests',):
        # "All tests come first, then faults": no fault has been read.
        return table.faults == 0
    if stage == ('faults',):
        # The last record was a fault, and there is no response yet.
        if table.faults == 0:
            return False
        for fault in range(table.faults):
            for test in range(table.tests):
                if cell(table, test, fault + 1) != cell(table, test, 0):
                    return False
        return True
    if len(stage) == 3 and stage[0] == 'responses':
        last_fault, last_test = stage[1], stage[2]
        # Refusal 8: the last response named a test and a fault that the book
        # has.
        if not 0 <= last_fault < table.faults:
            return False
        if not 0 <= last_test < table.tests:
            return False
        # Refusal 10: it did not repeat the correct output.
        if cell(table, last_test, last_fault + 1) == cell(table, last_test, 0):
            return False
        # "Responses rise strictly by fault, then by test": none came after it.
        for fault in range(table.faults):
            for test in range(table.tests):
                if (fault, test) > (last_fault, last_test):
                    if cell(table, test, fault + 1) != cell(table, test, 0):
                        return False
        return True
    if stage == ('ended',):
        # The well-formed tables "are the tables that some book gives".
        return True
    return False


def read_record(data, place, so_far):
    """One record: (outcome, place, so far)."""
    if place < 0:
        raise ValueError('a place is a number of bytes from the start')
    # "A reading so far that no start of any book gives, or a place past the
    # lent book's end, gives 20 with that place and the empty table, before
    # any other number."
    if place > len(data) or not some_start_gives(so_far):
        return ('refused', 20), place, begin()
    return _step(data, place, so_far)


def _step(data, place, so_far):
    """One record, for a reading so far and a place that are good."""
    stage = so_far.stage

    if stage == ('ended',):
        # 12: "a byte follows the end"; the place "is that of the byte after
        # the end record".
        if place < len(data):
            return ('refused', 12), place, begin()
        # "An accepted reading gives number 0, the book's length as place, and
        # the table."
        return ('accepted',), len(data), so_far

    # 3: "the book stops at a record's edge with no end record (an empty book
    # too)"; "For 3 the place is the book's length".
    if place == len(data):
        return ('refused', 3), len(data), begin()

    # "Reading stops at the first wrong record.  It returns the number, the
    # place of that record's first byte, and the empty table." "Within a
    # record the order is that of this list."
    number = 0
    kind = data[place]
    body = b''
    table = so_far.table.copy()
    if kind not in BODY_LENGTH:
        number = 1          # "every other value of the kind byte"
    elif len(data) - (place + 1) < BODY_LENGTH[kind]:
        number = 2          # "the body is cut short"
    else:
        body = bytes(data[place + 1:place + 1 + BODY_LENGTH[kind]])
        if kind == TEST:
            number, stage = _take_test(table, stage, body[0])
        elif kind == FAULT:
            number, stage = _take_fault(table, stage, body[0], body[1])
        elif kind == RESPONSE:
            number, stage = _take_response(table, stage,
                                           body[0], body[1], body[2])
        else:
            number, stage = _take_end(table, body[0], body[1])
    if number != 0:
        return ('refused', number), place, begin()
    return ('record', kind, body), place + 1 + len(body), SoFar(table, stage)


def _take_test(table, stage, output):
    # 4: "a test after a fault or response"
    if stage != ('tests',):
        return 4, stage
    # 5: "a 25th test"
    if table.tests == MAX_TESTS:
        return 5, stage
    table.cells[table.tests * COLUMNS] = output
    table.tests += 1
    return 0, ('tests',)


def _take_fault(table, stage, line, stuck):
    # 4: "a fault after a response"
    if stage[0] == 'responses':
        return 4, stage
    # 5: "a 61st fault"
    if table.faults == MAX_FAULTS:
        return 5, stage
    # 6: "stuck value above 1"
    if stuck > 1:
        return 6, stage
    # 7: "same line and value as an earlier fault"
    for fault in range(table.faults):
        if table.lines[fault] == line and table.stuck[fault] == stuck:
            return 7, stage
    table.lines[table.faults] = line
    table.stuck[table.faults] = stuck
    table.faults += 1
    # "A response that is not given equals the correct output."
    for test in range(table.tests):
        table.cells[test * COLUMNS + table.faults] = cell(table, test, 0)
    return 0, ('faults',)


def _take_response(table, stage, test, fault, output):
    # 8: "a response names a test or fault that the book lacks"
    if test >= table.tests or fault >= table.faults:
        return 8, stage
    # 9: "a response is not after the one before it"; "Responses rise strictly
    # by fault, then by test."
    if stage[0] == 'responses' and (fault, test) <= (stage[1], stage[2]):
        return 9, stage
    # 10: "a response repeats the correct output"
    if output == cell(table, test, 0):
        return 10, stage
    table.cells[test * COLUMNS + fault + 1] = output
    return 0, ('responses', fault, test)


def _take_end(table, tests, faults):
    # 11: "the end's counts are not those read"
    if tests != table.tests or faults != table.faults:
        return 11, None
    return 0, ('ended',)


def read_book(data):
    """The whole book: (number, place, table)."""
    place, so_far = 0, begin()
    while True:
        outcome, place, so_far = _step(data, place, so_far)
        if outcome[0] == 'refused':
            return outcome[1], place, empty_table()
        if outcome[0] == 'accepted':
            return 0, place, so_far.table


# -------------------------------------------------------------------- terms

def separates(table, test, a, b):
    """"A test separates two columns when their outputs differ." """
    return cell(table, test, a) != cell(table, test, b)


def some_test_separates(table, a, b):
    return any(separates(table, t, a, b) for t in range(table.tests))


def columns_of(table):
    """The healthy card and each fault."""
    return range(table.faults + 1)


def classes_of(table):
    """The classes as lists of columns, in class number.

    "Columns that no test separates form a class.  Classes are numbered by
    their lowest column; class 0 holds column 0 and the undetectable faults."
    """
    classes = []
    placed = set()
    for lowest in columns_of(table):
        if lowest in placed:
            continue
        members = [column for column in columns_of(table)
                   if not some_test_separates(table, lowest, column)]
        placed.update(members)
        classes.append(members)
    return classes


def classify(table):
    """(number, count of classes, class number of each of the 61 columns)."""
    numbers = [0] * COLUMNS
    if not well_formed(table):
        return 20, 0, numbers
    classes = classes_of(table)
    for number, members in enumerate(classes):
        for column in members:
            numbers[column] = number
    return 0, len(classes), numbers


def undetectable(table):
    """(number, set of faults: bit f for fault f).

    "A fault is undetectable when no test separates it from column 0." """
    if not well_formed(table):
        return 20, 0
    bits = 0
    for fault in range(table.faults):
        if not some_test_separates(table, 0, fault + 1):
            bits |= 1 << fault
    return 0, bits


def goal_pairs(table, goal):
    """"Goal pairs.  Detect: column 0 with each fault.  Diagnose: every two
    columns.  Only those count which some test of the table separates." """
    if goal == 'detect':
        pairs = [(0, fault + 1) for fault in range(table.faults)]
    elif goal == 'diagnose':
        pairs = list(itertools.combinations(columns_of(table), 2))
    else:
        raise ValueError('the goal is detect or diagnose')
    return [(a, b) for (a, b) in pairs if some_test_separates(table, a, b)]


def set_aside_tests(table, goal):
    """"A test is set aside for a goal when it separates no goal pair, or when
    a lower-numbered test separates every goal pair that it does." """
    pairs = goal_pairs(table, goal)
    separated = [{(a, b) for (a, b) in pairs if separates(table, t, a, b)}
                 for t in range(table.tests)]
    aside = []
    for t in range(table.tests):
        nothing = len(separated[t]) == 0
        covered = any(separated[t] <= separated[lower] for lower in range(t))
        if nothing or covered:
            aside.append(t)
    return aside


def essential_tests(table, goal):
    """"A kept test is essential when some fault differs from column 0 in that
    kept test and in no other kept test." """
    aside = set_aside_tests(table, goal)
    # "The others are kept."
    kept = [t for t in range(table.tests) if t not in aside]
    essential = []
    for t in kept:
        for fault in range(table.faults):
            differing = [k for k in kept if separates(table, k, 0, fault + 1)]
            if differing == [t]:
                essential.append(t)
                break
    return essential


# --------------------------------------------------------------------- sets

def set_of(tests):
    """"a 32-bit number whose bit t stands for test t" """
    return sum(1 << t for t in tests)


def tests_in(chosen):
    """The tests of a set in rising test number."""
    return [t for t in range(chosen.bit_length()) if chosen >> t & 1]


def lacks_a_test_of(table, chosen):
    """21: "a given set holds a test that the table lacks" """
    return chosen >> table.tests != 0


def set_aside(table, goal):
    if not well_formed(table):
        return 20, 0
    return 0, set_of(set_aside_tests(table, goal))


def essential(table, goal):
    if not well_formed(table):
        return 20, 0
    return 0, set_of(essential_tests(table, goal))


# --------------------------------------------------------------- the choice

def _masks_to_meet(table, goal):
    """For each goal pair the set of the tests that separate it.

    A mask that holds all of another mask is met whenever the other is met,
    so only the masks that hold no other one are kept.  Small ones come first.
    """
    masks = {set_of(t for t in range(table.tests)
                    if separates(table, t, a, b))
             for (a, b) in goal_pairs(table, goal)}
    smallest = [m for m in masks
                if not any(o != m and o & m == o for o in masks)]
    return sorted(smallest, key=lambda m: (bin(m).count('1'), m))


def _meets_all(chosen, masks):
    """"A set separates them when one of its tests does." """
    for mask in masks:
        if chosen & mask == 0:
            return False
    return True


def _choice(table, goal, cap):
    """"The choice is the first, in that order, of the smallest sets that
    separate every goal pair." "With no goal pair it is the empty set."

    "Order of sets of equal size: the set that holds the lowest test number
    in which the two differ comes first." This is the order in which
    itertools.combinations gives the subsets of one size.

    None when no set of at most cap tests separates every goal pair.
    """
    masks = _masks_to_meet(table, goal)
    bits = [1 << t for t in range(table.tests)]
    for size in range(min(cap, table.tests) + 1):
        for subset in itertools.combinations(bits, size):
            chosen = sum(subset)
            if _meets_all(chosen, masks):
                return chosen
    return None


def choose(table, goal, cap):
    if not well_formed(table):
        return 20, 0
    # 22: "a cap above 24"
    if cap > MAX_TESTS:
        return 22, 0
    chosen = _choice(table, goal, cap)
    # 23: "no set within the cap reaches the goal"
    if chosen is None:
        return 23, 0
    return 0, chosen


# -------------------------------------- dictionary, witness sheet, suspects

def signature(table, chosen, column):
    """"The signature of a column under a set is its outputs in rising test
    number." """
    return [cell(table, t, column) for t in tests_in(chosen)]


def dictionary(table, chosen, buffer):
    """"For k classes and a set of n tests, the dictionary is k rows of n bytes
    in rising class number, each class's row in its own part of the lent
    buffer; the count returned is k times n." """
    if not well_formed(table):
        return 20, 0
    if lacks_a_test_of(table, chosen):
        return 21, 0
    answer = []
    for members in classes_of(table):
        answer += signature(table, chosen, members[0])
    return _write(buffer, answer)


def witness_sheet(table, chosen, buffer):
    """"The witness sheet has one byte for each two classes, k(k - 1)/2 in all,
    ordered by lower class and then by higher: the lowest test of the set that
    separates them, or 255 where none does; the count returned is the number
    of bytes." """
    if not well_formed(table):
        return 20, 0
    if lacks_a_test_of(table, chosen):
        return 21, 0
    classes = classes_of(table)
    answer = []
    for lower in range(len(classes)):
        for higher in range(lower + 1, len(classes)):
            witness = 255
            for t in tests_in(chosen):
                if separates(table, t, classes[lower][0], classes[higher][0]):
                    witness = t
                    break
            answer.append(witness)
    return _write(buffer, answer)


def _write(buffer, answer):
    # 24: "the lent buffer is shorter than the answer"; a refused call's
    # "buffers keep their bytes".
    if len(buffer) < len(answer):
        return 24, 0
    # "A longer buffer is no refusal: bytes past the answer stay."
    for i, byte in enumerate(answer):
        buffer[i] = byte
    return 0, len(answer)


def suspects_of(table, chosen, outputs):
    """"Suspects are all columns whose signature under the set equals the
    observed outputs; there may be none." "in rising order, at most 61" """
    if not well_formed(table):
        return 20, 0, [0] * COLUMNS
    if lacks_a_test_of(table, chosen):
        return 21, 0, [0] * COLUMNS
    # 25: "observed outputs are not one for each test of the set"
    if len(outputs) != len(tests_in(chosen)):
        return 25, 0, [0] * COLUMNS
    found = [column for column in columns_of(table)
             if signature(table, chosen, column) == list(outputs)]
    return 0, len(found), found + [0] * (COLUMNS - len(found))


# ----------------------------------------------------------- the full adder

# "the correct outputs are 0 2 2 1 2 1 1 3"
ADDER_CORRECT = (0, 2, 2, 1, 2, 1, 1, 3)
# "Faults in book order: lines 1 to 5 stuck at 1, then lines 1 to 5 stuck at 0."
ADDER_FAULTS = ((1, 1), (2, 1), (3, 1), (4, 1), (5, 1),
                (1, 0), (2, 0), (3, 0), (4, 0), (5, 0))
# "The full adder's 36 responses are built in as a constant table": test,
# fault, output, in book order.
ADDER_RESPONSES = (
    (0, 0, 2), (1, 0, 1), (6, 0, 3), (7, 0, 1),
    (0, 1, 1), (1, 1, 3), (2, 1, 3), (4, 1, 3),
    (0, 2, 2), (3, 2, 3), (5, 2, 3), (6, 2, 3),
    (0, 3, 1), (1, 3, 3), (2, 3, 3), (4, 3, 3),
    (0, 4, 1), (1, 4, 3), (2, 4, 3), (4, 4, 3),
    (2, 5, 0), (3, 5, 2), (4, 5, 0), (5, 5, 2),
    (6, 6, 0), (7, 6, 2),
    (1, 7, 0), (2, 7, 0), (4, 7, 0), (7, 7, 1),
    (3, 8, 0), (5, 8, 0),
    (3, 9, 0), (5, 9, 0), (6, 9, 0), (7, 9, 2),
)


def full_adder():
    """The full adder's table from the built-in constants."""
    table = empty_table()
    table.tests = len(ADDER_CORRECT)
    table.faults = len(ADDER_FAULTS)
    for test, output in enumerate(ADDER_CORRECT):
        for column in columns_of(table):
            table.cells[test * COLUMNS + column] = output
    for fault, (line, stuck) in enumerate(ADDER_FAULTS):
        table.lines[fault] = line
        table.stuck[fault] = stuck
    for test, fault, output in ADDER_RESPONSES:
        table.cells[test * COLUMNS + fault + 1] = output
    return table


# --------------------------------------------------------- the program pick

def _listed(items):
    """"An empty list, an empty signature too, prints "none"." """
    return ' '.join(str(item) for item in items) if items else 'none'


def _name(table, column):
    """""good" or line/stuck value" """
    if column == 0:
        return 'good'
    return '%d/%d' % (table.lines[column - 1], table.stuck[column - 1])


def report(data):
    """What pick prints for a book, as bytes."""
    number, place, table = read_book(data)
    # "A refused book prints one line, "refused 8 at 0", number and place."
    if number != 0:
        return b'refused %d at %d\n' % (number, place)
    # "Lines 1 to 5: sizes; set-aside and essential tests for diagnose; the two
    # choices with cap 24."
    classes = classes_of(table)
    detect = choose(table, 'detect', 24)[1]
    diagnose = choose(table, 'diagnose', 24)[1]
    lines = [
        'tests %d faults %d classes %d' % (table.tests, table.faults,
                                           len(classes)),
        'aside ' + _listed(tests_in(set_aside(table, 'diagnose')[1])),
        'essential ' + _listed(tests_in(essential(table, 'diagnose')[1])),
        'detect ' + _listed(tests_in(detect)),
        'diagnose ' + _listed(tests_in(diagnose)),
    ]
    # "Then each class: its signature under the diagnose choice, and its
    # members in rising column number".
    for k, members in enumerate(classes):
        lines.append('class %d : %s : %s' % (
            k, _listed(signature(table, diagnose, members[0])),
            _listed([_name(table, column) for column in members])))
    return ''.join(line + '\n' for line in lines).encode('ascii')


if __name__ == '__main__':
    # "The program pick reads a book from standard input."
    sys.stdout.buffer.write(report(sys.stdin.buffer.read()))
