#!/usr/bin/env python3
"""job_vectors.py SOURCE_DIR [LAST CHANGES OUTS]: writes the cases of the program job_vectors, and the lines that it must print.

SOURCE_DIR is that of read_vectors.py, with two things more: the file `sheet` of each folder, a sheet to be checked, and the file `answers`,
with the line NAME NUMBER PLACE for each folder: what another implementation's check answered for that sheet. `out` and `answers` are all
that the lines expected are made of, but for cases that the change requests up to LAST gave other answers: CHANGES has a line REQUEST NAME WHAT
for each, in the order of the requests, where WHAT is `out` (the sheet program now prints the file REQUEST-NAME of the folder OUTS),
`refused,NUMBER,PLACE` (it prints this line) or `check NUMBER PLACE`.

Beyond these, `made_cases` has P1 and P3 to P8 of the requirements (p2 is given). Their lines are those that the requirements state; where they
state only the marks or the dangerous edges, the sheet is worked out by hand, with the reason beside it.

Writes crates/job_vectors/data/cases, whose form crates/job_vectors/src/main.rt describes, and crates/job_vectors/stdout, in the repository
that holds this script.
"""
import os
import sys

from read_vectors import LONGEST, REPOSITORY, folders, text_of

UP = text_of('P,up', 'N,E,,', 'N,X,,', 'B,0,-,1')
STEPS = ['P,up', 'N,E,,', 'N,S,read layer,', 'N,S,set speed,', 'N,S,hold,', 'N,X,,']
EDGES = ['B,0,-,1', 'B,1,up,2', 'B,1,stop,3', 'B,2,ok,1', 'B,3,ok,4']
LAYERS = text_of(*STEPS, *EDGES)
BY_LAYER = LAYERS.replace(b'set speed', b'set speed by layer')
TESTS = text_of('T,t1,a8', 'T,t2,f8')
WIND = text_of('P,up', 'N,E,,', 'N,S,wind,', 'N,X,,', 'B,0,-,1', 'B,1,T,1', 'B,1,F,2')
WIND_TWICE = text_of('P,up', 'N,E,,', 'N,S,wind,', 'N,S,wind,', 'N,X,,', 'B,0,-,1', 'B,1,T,2', 'B,1,F,3', 'B,2,T,1', 'B,2,F,3')
ITSELF = text_of('P,up', 'N,E,,', 'N,C,wind,up', 'N,X,,', 'B,0,-,1', 'B,1,-,2')
P2_OUT = text_of('sheet,1', 'M,0,0', 'M,1,1', 'M,3,3', 'M,4,4', 'D,1', 'R,t2', 'end,4,1,1', 'V,t1,3,10101', 'V,t2,5,1????')


def made_cases():
    """Names, texts (old, new, tests, sheet), the lines that the sheet program prints, and the answer of the check."""
    p1 = text_of('sheet,1', 'M,0,0', 'M,1,1', 'end,2,0,0')
    yield 'p1', UP, UP, b'', p1, p1, (0, 0)
    # The old `wind` meets both new ones, by T in turn; F leads to the exit from both.
    p3 = text_of('sheet,1', 'M,0,0', 'M,1,1', 'M,1,2', 'M,2,3', 'end,4,0,0')
    yield 'p3', WIND, WIND_TWICE, text_of('T,long,e', 'T,short,a'), p3, p3 + text_of('V,long,3,1????', 'V,short,2,10?0?'), (0, 0)
    # `hold` and the exit are met only by `stop`, which the new node does not have.
    p4 = text_of('sheet,1', 'M,0,0', 'M,1,1', 'M,2,2', 'D,2', 'end,3,1,0')
    yield 'p4', LAYERS, LAYERS.replace(b'1,stop,3', b'1,halt,3'), b'', p4, p4, (0, 0)
    # A word that only the new node has is harmless: all five nodes meet themselves.
    p5 = text_of('sheet,1', *['M,%d,%d' % (n, n) for n in range(5)], 'end,5,0,0')
    yield 'p5', LAYERS, LAYERS + b'B,3,more,1\n', b'', p5, p5, (0, 0)
    # The exits are no pair, so the call does not go on.
    yield 'p6', ITSELF, ITSELF, b'', p1, p1, (0, 0)
    p7 = text_of('sheet,1', 'M,0,0', 'D,0', 'R,t1', 'R,t2', 'end,1,1,2')
    yield 'p7', LAYERS, BY_LAYER, TESTS, p7, P2_OUT, (0, 0)
    p8 = text_of('sheet,1', 'M,0,0', 'M,1,1', 'M,3,3', 'M,4,4', 'R,t2', 'end,4,0,1')
    yield 'p8', LAYERS, BY_LAYER, TESTS, p8, P2_OUT, (12, 4)


def changes(last, lines, outs):
    """What the requests up to `last` changed, by case: the lines that the sheet program prints now, and the answer of the check."""
    printed, checked = {}, {}
    for line in lines:
        request, name, *what = line.split()
        if int(request) > last:
            continue
        if what[0] == 'check':
            checked[name] = int(what[1]), int(what[2])
        elif what[0] == 'out':
            with open(os.path.join(outs, request + '-' + name), 'rb') as f:
                printed[name] = f.read()
        else:
            printed[name] = text_of(what[0])
    return printed, checked


def given_cases(source, printed, checked):
    """The cases of the folders, with what was changed."""
    answers = {}
    with open(os.path.join(source, 'answers')) as f:
        for line in f:
            name, number, place = line.split()
            answers[name] = int(number), int(place)
    for name, files in folders(source):
        with open(os.path.join(source, name, 'sheet'), 'rb') as f:
            sheet = f.read()
        yield name, files['old'], files['new'], files['tests'], sheet, printed.get(name, files['out']), checked.get(name, answers[name])


def head(name, texts):
    if len(name) > 32 or ' ' in name or max(map(len, texts)) > LONGEST:
        raise SystemExit('the case %s does not fit the form of the data' % name)
    return b''.join(b'%06d ' % len(text) for text in texts) + name.encode('ascii').ljust(35) + b'\n'


def expected(name, out, answer):
    """The lines of a case: what the sheet program prints, what is said of short and long outputs, and the answer of the check."""
    lines = b'case,%b\n' % name.encode('ascii') + out
    if not out.startswith(b'refused,'):
        written = len(out[:out.index(b'\nend,') + 1]) + len(out[out.index(b'\nend,') + 1:].split(b'\n')[0]) + 1
        lines += b'short,16,0,kept\nexact,0,%d,kept\n' % written
    return lines + b'check,%d,%d\n' % answer


def main():
    if len(sys.argv) not in (2, 5):
        raise SystemExit('usage: job_vectors.py SOURCE_DIR [LAST CHANGES OUTS]')
    changed = {}, {}
    if len(sys.argv) == 5:
        with open(sys.argv[3]) as f:
            changed = changes(int(sys.argv[2]), f, sys.argv[4])
    given = list(given_cases(sys.argv[1], *changed))
    made = [('made-' + case[0], *case[1:]) for case in made_cases()]
    crate = os.path.join(REPOSITORY, 'crates', 'job_vectors')
    os.makedirs(os.path.join(crate, 'data'), exist_ok=True)
    with open(os.path.join(crate, 'data', 'cases'), 'wb') as f:
        for name, *texts, _, _ in given + made:
            f.write(head(name, texts) + b''.join(texts))
    with open(os.path.join(crate, 'stdout'), 'wb') as f:
        for name, _, _, _, _, out, answer in given + made:
            f.write(expected(name, out, answer))
    print('%d cases given, %d made' % (len(given), len(made)))


if __name__ == '__main__':
    main()
