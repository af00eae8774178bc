#!/usr/bin/env python3
"""suite_vectors.py SOURCE_DIR: writes the cases of the program suite_vectors, and the lines that it must print.

SOURCE_DIR is that of read_vectors.py. A case is the number of edges of the old program and a test file (a lift file). It is taken from a
folder where, as read_vectors.py decides, both program files are read. The line expected is NAME,NUMBER,PLACE where the test file is refused,
else NAME,read,COUNT and after it, for each test in order, how many edges it covers:

- No refusal in `out`: the file is read. A test covers as many edges as the V line of its name says; there must be one V line for each T line.
- The refusal 15 (too many pairs): the file is read. There are no V lines: a test covers as many edges as its row has ones.
- Any other refusal is that of the test file.

Beyond these, `made_cases` has texts at the limits of the format. Their answers are worked out by hand from the requirements, with the
reason beside each.

Every answer is held against the faults of its text, which `suite_faults` lists: a refusal must be on the list, and a file that is read has none.
Where a file is read, the ones of its rows are counted as well.

Writes crates/suite_vectors/data/cases, whose form crates/suite_vectors/src/main.rt describes, and crates/suite_vectors/stdout, in the
repository that holds this script.
"""
import os
import re
import sys

from read_vectors import LONGEST, REPOSITORY, T_LINE, answer_of, folders, lift_faults, split, text_of

DIGITS = re.compile(rb'[0-9a-f]*')


def is_row(edges, row):
    """Whether it is the row of a test where there are so many edges: its digits, and no spare bit set."""
    if not DIGITS.fullmatch(row) or len(row) != (edges + 3) // 4:
        return False
    return not edges or int(row, 16) % 2 ** (4 * len(row) - edges) == 0


def rows_of(text):
    """The rows of the well-formed lines, with the places of these."""
    return [(place, line.split(b',')[2]) for place, line in enumerate(split(text)[0], 1) if T_LINE.fullmatch(line)]


def suite_faults(edges, text):
    """The faults of a test file, as (number, place). Those after the first are listed too."""
    return lift_faults(text) | {(10, place) for place, row in rows_of(text) if not is_row(edges, row)}


def ones_of(text):
    """How many edges each test covers, by its row."""
    return [bin(int(row or b'0', 16)).count('1') for _, row in rows_of(text)]


def given_answer(tests, out):
    """The number and place of the refusal of a test file, or what its tests cover."""
    if out.startswith(b'refused,'):
        number, place = (int(field) for field in out.split(b',')[1:])
        return ones_of(tests) if number == 15 else (number, place)
    told = [line.split(b',') for line in split(out)[0] if line.startswith(b'V,')]
    if [name for _, name, _, _ in told] != [line.split(b',')[1] for line in split(tests)[0]]:
        raise SystemExit('the V lines are not those of the tests')
    return [int(crossed) for _, _, crossed, _ in told]


# ---- texts at the limits


def first(covered, edges):
    """The row that has the first so many edges of all."""
    digits = (edges + 3) // 4
    return '%0*x' % (digits, (2 ** covered - 1) << (4 * digits - covered)) if digits else ''


def single(edge, edges):
    """The row that has only this edge."""
    digits = (edges + 3) // 4
    return '%0*x' % (digits, 1 << (4 * digits - 1 - edge))


def tests_of(*rows):
    return text_of(*['T,t%d,%s' % (k, row) for k, row in enumerate(rows)])


def many(count):
    """So many tests over 8 edges."""
    return tests_of(*['%02x' % k for k in range(count)])


def long_row(length):
    """A test in a text of so many bytes, by its row."""
    return b'T,t,' + b'0' * (length - 5) + b'\n'


def made_cases():
    """Names, numbers of edges, texts and answers: number and place of the refusal, as a tuple, or a list of what the tests cover."""
    # The file of P2: edge 0 is the highest bit of the first digit, so a8 is edges 0, 2 and 4 of five, and f8 is all of them.
    yield 'p2', 5, text_of('T,t1,a8', 'T,t2,f8'), [3, 5]
    # An empty file holds no tests.
    yield 'empty', 5, b'', []
    # The ones of each digit.
    yield 'digits', 4, tests_of(*'0123456789abcdef'), [0, 1, 1, 2, 1, 2, 2, 3, 1, 2, 2, 3, 2, 3, 3, 4]
    # At most 200 tests; their rows are the numbers 0 to 199. The 201st is 4 at its line.
    yield 'tests-200', 8, many(200), [bin(k).count('1') for k in range(200)]
    yield 'tests-201', 8, many(201), (4, 201)
    # In a line 2 comes before 4, 4 before 5, and 5 before 10.
    yield 'tests-201-same-name', 8, many(200) + text_of('T,t7,00'), (4, 201)
    yield 'tests-201-bad-row', 8, many(200) + text_of('T,t200,0'), (4, 201)
    yield 'tests-201-malformed', 8, many(200) + text_of('T,t200'), (2, 201)
    yield 'tests-201-unended', 8, many(201)[:-1], (2, 201)
    yield 'tests-200-same-name', 8, many(199) + text_of('T,t0,00'), (5, 200)
    # A name twice is 5 at the second line, wherever the first is, and before the 10 of its row; a name is all its bytes, upper case or lower.
    yield 'name-twice', 5, text_of('T,t,a8', 'T,t,f8'), (5, 2)
    yield 'name-twice-apart', 5, text_of('T,t,a8', 'T,u,a8', 'T,t,a8'), (5, 3)
    yield 'name-twice-bad-row', 5, text_of('T,t,a8', 'T,t,a'), (5, 2)
    yield 'name-twice-after-bad-row', 5, text_of('T,t,a', 'T,t,a8'), (10, 1)
    yield 'name-twice-unended', 5, b'T,t,a8\nT,t,a8', (2, 2)
    yield 'name-begins-another', 5, text_of('T,ab,a8', 'T,a,80', 'T,abc,f8'), [3, 1, 5]
    yield 'name-upper-and-lower', 5, text_of('T,a,a8', 'T,A,f8'), [3, 5]
    # Names have 1 to 12 bytes, each one of 0-9 A-Z _ a-z. Another name makes the line malformed.
    yield 'name-12', 5, text_of('T,%s,a8' % ('n' * 12)), [3]
    yield 'name-13', 5, text_of('T,%s,a8' % ('n' * 13)), (2, 1)
    yield 'name-empty', 5, text_of('T,,a8'), (2, 1)
    for byte in b'/09:@AZ[^_`az{- ':
        yield 'name-byte-%d' % byte, 5, text_of('T,%c,a8' % byte), [3] if byte in b'09AZ_az' else (2, 1)
    # A bad name is 2, though the row is bad too.
    yield 'name-13-bad-row', 5, text_of('T,%s,a' % ('n' * 13)), (2, 1)
    # Five edges have two digits. A row that is too short, empty or too long is 10 at its line, not 2.
    for name, row in ('short', 'a'), ('empty', ''), ('long', 'a80'), ('far-too-long', '0' * 300):
        yield 'row-' + name, 5, text_of('T,t,a8', 'T,u,' + row), (10, 2)
    # So is one with a byte that is no lower-case digit: upper case, the bytes beside the digits, and bytes that no field of a name may have.
    for byte in 0, 13, 32, 47, 58, 65, 70, 96, 103, 127, 128, 255:
        yield 'row-byte-%d' % byte, 5, text_of('T,t,a8', 'T,u,%c8' % byte), (10, 2)
        yield 'row-last-byte-%d' % byte, 5, text_of('T,t,a8', 'T,u,a%c' % byte), (10, 2)
    # A blank or a byte 13 after the row makes it too long.
    yield 'row-then-blank', 5, text_of('T,t,a8 '), (10, 1)
    yield 'row-then-byte-13', 5, text_of('T,t,a8\r'), (10, 1)
    # Of the last digit of five edges only the highest bit is no spare one.
    for digit in '12345679abcdef':
        yield 'row-spare-%s' % digit, 5, text_of('T,t,f8', 'T,u,0' + digit), (10, 2)
    # Rows of every edge, with one digit for each four edges, rounded up. One digit less or more is 10, and so is the first spare bit.
    full = (1, '8'), (2, 'c'), (3, 'e'), (4, 'f'), (5, 'f8'), (6, 'fc'), (7, 'fe'), (8, 'ff'), (9, 'ff8')
    full += (63, 'f' * 15 + 'e'), (64, 'f' * 16), (65, 'f' * 16 + '8')
    full += (1020, 'f' * 255), (1021, 'f' * 255 + '8'), (1022, 'f' * 255 + 'c'), (1023, 'f' * 255 + 'e'), (1024, 'f' * 256)
    for edges, row in full:
        none = '0' * len(row)
        yield 'edges-%d' % edges, edges, tests_of(row, none, row), [edges, 0, edges]
        yield 'edges-%d-short' % edges, edges, tests_of(row, none[1:]), (10, 2)
        yield 'edges-%d-long' % edges, edges, tests_of(row, none + '0'), (10, 2)
        if edges % 4:
            spare = none[1:] + {1: '4', 2: '2', 3: '1'}[edges % 4]
            yield 'edges-%d-spare' % edges, edges, tests_of(row, spare), (10, 2)
    # The digits of 1,025 edges are one too many for 1,024, and the digits of 1,023 are as many as those of 1,024.
    yield 'edges-1024-row-of-1025', 1024, tests_of('f' * 256 + '8'), (10, 1)
    yield 'edges-1024-row-of-1023', 1024, tests_of('f' * 255 + 'e'), [1023]
    yield 'edges-1023-row-of-1024', 1023, tests_of('f' * 256), (10, 1)
    yield 'edges-1020-row-of-1021', 1020, tests_of('f' * 255 + '8'), (10, 1)
    # No program that is read has no edges, but the reader of test files allows it: then a row has no digits.
    yield 'edges-0', 0, tests_of('', ''), [0, 0]
    yield 'edges-0-digit', 0, tests_of('0'), (10, 1)
    # One edge of 1,024, and the first so many, around the ends of the words that hold a row.
    ends = [0, 1, 3, 4, 62, 63, 64, 65, 127, 128, 511, 512, 959, 960, 1022, 1023]
    yield 'single-edges', 1024, tests_of(*[single(edge, 1024) for edge in ends]), [1] * len(ends)
    yield 'first-edges', 1024, tests_of(*[first(covered, 1024) for covered in ends]), ends
    # 200 tests over 1,024 edges, each name of 12 bytes: the longest file that is read has 200 * 272 = 54,400 bytes. The test k has 5 * k edges.
    longest = text_of(*['T,%012d,%s' % (k, first(5 * k, 1024)) for k in range(200)])
    yield 'longest', 1024, longest, [5 * k for k in range(200)]
    yield 'longest-full', 1024, tests_of(*['f' * 256] * 200), [1024] * 200
    # A comma in a row makes one field too many: 2. Without the comma before it there is one too few.
    for k, line in enumerate(['T,t,a,8', 'T,t,a8,', 'T,t,,a8', 'T,t,,', 'T,t', 'T,', 'T', 'T,ta8']):
        yield 'fields-%d' % k, 5, text_of('T,s,a8', line), (2, 2)
    # A line of no kind that a test file has, and an empty line.
    for k, line in enumerate(['t,t,a8', 'TT,t,a8', ' T,t,a8', 'T ,t,a8', ',t,a8', 'V,t,a8', 'P,t', 'N,E,,', 'B,0,-,1', 'sheet,1', '']):
        yield 'kind-%d' % k, 5, text_of('T,s,a8', line), (2, 2)
    yield 'empty-line', 5, b'\n', (2, 1)
    # A last line without byte 10 is malformed, whatever it holds.
    yield 'unended', 5, b'T,t,a8', (2, 1)
    yield 'unended-second', 5, b'T,t,a8\nT,u,a8', (2, 2)
    yield 'unended-bad-row', 5, b'T,t,a8\nT,u,a', (2, 2)
    yield 'unended-one-byte', 5, b'T,t,a8\nT', (2, 2)
    # The first line with a fault is the one refused.
    yield 'bad-row-then-malformed', 5, text_of('T,t,a', 'x'), (10, 1)
    yield 'bad-row-then-unended', 5, b'T,t,a\nT', (10, 1)
    yield 'malformed-then-bad-row', 5, text_of('x', 'T,t,a'), (2, 1)
    # 65,536 bytes are allowed: what is refused is the row of line 1, as it is too long. One byte more is 1, place 0, whatever the lines are.
    yield 'text-65536', 1024, long_row(65536), (10, 1)
    yield 'text-65537', 1024, long_row(65537), (1, 0)
    yield 'text-65536-unended', 1024, long_row(65537)[:-1], (2, 1)
    yield 'text-65537-tests', 1024, longest + b'\n' * (65537 - len(longest)), (1, 0)
    yield 'text-65536-tests', 1024, longest + b'\n' * (65536 - len(longest)), (2, 201)


# ---- writing


def head(name, edges, text):
    if len(name) > 32 or ' ' in name or edges > 1024 or len(text) > LONGEST:
        raise SystemExit('the case %s does not fit the form of the data' % name)
    return (b'%06d %06d %b' % (edges, len(text), name.encode('ascii'))).ljust(47) + b'\n'


def line_of(name, edges, text, answer):
    """The line expected, once the answer is held against the text."""
    found = suite_faults(edges, text)
    if isinstance(answer, tuple):
        fits = answer in found
        fields = answer
    else:
        fits = not found and answer == ones_of(text)
        fields = ['read', len(answer)] + answer
    if not fits:
        raise SystemExit('the answer of the case %s does not fit its text' % name)
    return ','.join([name] + [str(field) for field in fields]) + '\n'


def given_cases(source):
    """The cases of the folders where both program files are read."""
    for name, files in folders(source):
        if answer_of(**files) == 'read':
            edges = sum(line.startswith(b'B,') for line in split(files['old'])[0])
            yield name, edges, files['tests'], given_answer(files['tests'], files['out'])


def main():
    if len(sys.argv) != 2:
        raise SystemExit('usage: suite_vectors.py SOURCE_DIR')
    given = list(given_cases(sys.argv[1]))
    made = [('made-' + name, edges, text, answer) for name, edges, text, answer in made_cases()]
    cases = given + made
    if len({name for name, _, _, _ in cases}) != len(cases):
        raise SystemExit('two cases have one name')
    lines = [line_of(*case) for case in cases]
    crate = os.path.join(REPOSITORY, 'crates', 'suite_vectors')
    os.makedirs(os.path.join(crate, 'data'), exist_ok=True)
    with open(os.path.join(crate, 'data', 'cases'), 'wb') as f:
        for name, edges, text, _ in cases:
            f.write(head(name, edges, text) + text)
    with open(os.path.join(crate, 'stdout'), 'w') as f:
        f.writelines(lines)
    for origin, group in ('given', given), ('made', made):
        refused = sum(isinstance(answer, tuple) for _, _, _, answer in group)
        print('%d cases %s: %d read, %d refused' % (len(group), origin, len(group) - refused, refused))


if __name__ == '__main__':
    main()
