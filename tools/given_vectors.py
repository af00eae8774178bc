#!/usr/bin/env python3
r"""given_vectors.py [--before-5] SOURCE_DIR OUT NAME..: writes the cases of these names, in this order, into the file OUT, for
host/rust/tests/given.rs.

SOURCE_DIR is a folder of given jobs that is not in the repository. Its file `answers` has a line for each call, fields parted by one blank:

    CASE CALL ARGUMENTS NUMBER PLACE WRITTEN

The texts of a case are the files old, new, tests and sheet of the folder CASE; one that is not there is empty. ARGUMENTS are `name=number`
parted by commas, `-` for none; `room` is the length of the output. NUMBER and PLACE are the answer, WRITTEN is the file of the folder CASE
with the bytes that the call writes, `-` for none. The search `first_danger` writes nothing; its PLACE is the lowest dangerous edge in the
row of the test `lift`, or `none`. All answers in OUT are these; nothing is worked out here.

OUT has for each case, its texts and its calls in the order of `answers`:

    case NAME
    text NAME LENGTH
    |LINE
    call CALL ARGUMENTS NUMBER PLACE
    |LINE

The lines with `|` are those of the text, or of the bytes written. Each stands for itself and byte 10, or without byte 10 if it ends in `\`.
`\xNN` is the byte NN: any that is not in 32 to 126, `\`, and a blank at the end of a line. So OUT is ASCII, and a diff of it can be read.

A line of `answers` whose call is not in CALLS is left out and told. With --before-5 so are record lines whose marks are `?` throughout: the
answers are those due before request 5 of the change requests, when a repeated test had such marks. To make a file again with the cases that
it has:

    given_vectors.py SOURCE_DIR OUT $(sed -n 's/^case //p' OUT)
"""
import os
import sys

TEXTS = 'old', 'new', 'tests', 'sheet'
SEARCH = 'first_danger'
CALLS = {  # those that run a whole job, and the search, with their arguments, which are given in any order
    'read_old': [], 'sheet': ['room'], 'record': ['lift', 'room'], 'check': [], 'write_back': ['room', 'side'], 'probes': ['room'],
    SEARCH: ['lift'],
}


def escaped(line):
    """A line in the form of OUT, without what tells its end."""
    blanks = len(line) - len(line.rstrip(b' '))
    kept = ''.join(chr(byte) if 32 <= byte <= 126 and byte != 92 else '\\x%02x' % byte for byte in line[:len(line) - blanks])
    return kept + (' ' * (blanks - 1) + '\\x20' if blanks else '')


def lines_of(text):
    """A text, or bytes written, in the form of OUT."""
    *lines, rest = text.split(b'\n')
    return ['|' + escaped(line) for line in lines] + (['|' + escaped(rest) + '\\'] if rest else [])


def read(*path):
    with open(os.path.join(*path), 'rb') as f:
        return f.read()


def call_lines(folder, call, arguments, number, place, written):
    """A call, its answer and what it writes. On success the place is the bytes written, but for the search."""
    out = b'' if written == '-' else read(folder, written)
    names = [argument.split('=')[0] for argument in arguments.split(',') if argument != '-']
    if sorted(names) != CALLS[call] or len(out) != (0 if int(number) or call == SEARCH else int(place)):
        raise SystemExit('a call of the case %s does not fit the form of the data: %s' % (os.path.basename(folder), call))
    return [' '.join(('call', call, arguments, number, place)), *lines_of(out)]


def all_doubtful(folder, call, *fields):
    """Is this a record line whose marks are `?` throughout?"""
    written = fields[-1]
    return call == 'record' and written != '-' and not read(folder, written).rstrip(b'\n').rsplit(b',', 1)[1].strip(b'?')


def main():
    before = sys.argv[1:2] == ['--before-5']
    given = sys.argv[1 + before:]
    if len(given) < 3:
        raise SystemExit('usage: given_vectors.py [--before-5] SOURCE_DIR OUT NAME..')
    source, out, *names = given
    if len(set(names)) != len(names):
        raise SystemExit('a case is named twice')
    answers = [line.split(' ') for line in read(source, 'answers').decode('ascii').splitlines()]
    lines, count = [], 0
    for name in names:
        folder = os.path.join(source, name)
        calls = []
        for case, *fields in answers:
            if case != name:
                continue
            if fields[0] not in CALLS or before and all_doubtful(folder, *fields):
                print('left out: %s %s' % (case, ' '.join(fields)))
            else:
                calls.append(call_lines(folder, *fields))
        if not calls:
            raise SystemExit('no call is left of the case ' + name)
        lines.append('case ' + name)
        for text in TEXTS:
            if os.path.exists(os.path.join(folder, text)):
                given = read(folder, text)
                lines += ['text %s %d' % (text, len(given)), *lines_of(given)]
        lines += sum(calls, [])
        count += len(calls)
    with open(out, 'w', encoding='ascii', newline='\n') as f:
        f.writelines(line + '\n' for line in lines)
    print('%d cases, %d calls' % (len(names), count))


if __name__ == '__main__':
    main()
