#!/usr/bin/env python3
"""read_vectors.py SOURCE_DIR: writes the cases of the program read_vectors, and the lines that it must print.

SOURCE_DIR has a folder for each case, with the files old and new (program files), tests (a lift file) and out: what another
implementation's sheet program printed for them. That is a sheet and records, or only `refused,NUMBER,PLACE`, for the first refusal met
in reading old, then new, then tests, or after that. The line expected of a case is NAME,read where both program files are read, else
NAME,old,NUMBER,PLACE or NAME,new,NUMBER,PLACE. A number and a place are always those of `out`:

- No refusal, 15 (too many pairs) or 10 (a lift's row): both program files are read.
- Any other refusal is that of the first file, of old, new and tests, that has a fault: a file with a fault is refused, and the files are
  read in this order. `faults` and `lift_faults` list every fault of a file, whichever is met first, and the refusal must be on the list
  of that file. Where the file is tests, both program files are read.
- Where no file has a fault, or the refusal is not on the list, the case is in doubt and left out.

Beyond these, `made_cases` has texts at the limits of the format. Their answers are worked out by hand from the requirements, with the
reason beside each, and are held against `faults`. Such a text is the old one of its case, and SMALL the new one.

Before the cases the program prints its table of the fewest and the most edges by kind, which must be `EDGES`.

Writes crates/read_vectors/data/cases, whose form crates/read_vectors/src/main.rt describes, and crates/read_vectors/stdout, in the
repository that holds this script.
"""
import os
import re
import sys

REPOSITORY = os.path.dirname(os.path.dirname(os.path.abspath(__file__)))
LONGEST = 65537  # the program's buffer: one byte more than a program file may have

NAME = rb'[A-Za-z0-9_]{1,12}'
LABEL = rb'[\x20-\x2b\x2d-\x7e]{1,60}'  # 32 to 126, no comma
WORD = rb'[\x21-\x2b\x2d-\x7e]{1,8}'  # 33 to 126, no comma
NUMBER = rb'(?:0|[1-9][0-9]*)'
P_LINE = re.compile(rb'P,(%b)' % NAME)
N_LINE = re.compile(rb'N,(?:[EX],,|S,%b,|C,%b,(%b))' % (LABEL, LABEL, NAME))
B_LINE = re.compile(rb'B,(%b),(%b),(%b)' % (NUMBER, WORD, NUMBER))
T_LINE = re.compile(rb'T,(%b),[^,]*' % NAME)
EDGES = {'E': (1, 1), 'S': (1, 8), 'C': (1, 1), 'X': (0, 0)}  # the fewest and the most that leave a node of the kind


def split(text):
    """The lines, and what stands after the last byte 10."""
    lines = text.split(b'\n')
    return lines[:-1], lines[-1]


def is_broken(nodes, edges):
    """Whether a procedure has not one E and one X, or a node breaks the table or the rule of `-`.

    Nodes are kinds by number, edges the numbers where they start with their words.
    """
    kinds = list(nodes.values())
    if kinds.count('E') != 1 or kinds.count('X') != 1:
        return True
    for node, kind in nodes.items():
        words = [word for start, word in edges if start == node]
        fewest, most = EDGES[kind]
        if not fewest <= len(words) <= most:
            return True
        if kind in 'EC' and words != [b'-']:
            return True
    return False


def faults(text):
    """The faults of a program file, as (number, place). Those after the first are listed too, and may follow from it."""
    found = set()
    lines, rest = split(text)
    if len(text) > 65536:
        found.add((1, 0))
    if rest or not text:
        found.add((2, len(lines) + 1))
    names, callees, procedures = set(), [], []
    nodes, edges = {}, []  # of the procedure that is being read
    node_count = edge_count = 0
    for place, line in enumerate(lines, 1):
        p, n, b = P_LINE.fullmatch(line), N_LINE.fullmatch(line), B_LINE.fullmatch(line)
        if p:
            nodes, edges = {}, []
            procedures.append((place, nodes, edges))
            if len(procedures) > 64:
                found.add((4, place))
            if p[1] in names:
                found.add((5, place))
            names.add(p[1])
        elif n:
            if not procedures or edges:
                found.add((3, place))
            nodes[b'%d' % node_count] = chr(line[2])
            node_count += 1
            if node_count > 512:
                found.add((4, place))
            if n[1]:
                callees.append((place, n[1]))
        elif b:
            if not procedures:
                found.add((3, place))
            edge_count += 1
            if edge_count > 1024:
                found.add((4, place))
            if b[1] not in nodes or b[3] not in nodes:  # spelled without leading zeros, a number is its digits
                found.add((6, place))
            if (b[1], b[2]) in edges:
                found.add((7, place))
            edges.append((b[1], b[2]))
        else:
            found.add((2, place))
    found |= {(8, place) for place, nodes, edges in procedures if is_broken(nodes, edges)}
    found |= {(9, place) for place, callee in callees if callee not in names}
    return found


def lift_faults(text):
    """The faults of a lift file that do not hang on its program, as (number, place)."""
    found = set()
    lines, rest = split(text)
    if len(text) > 65536:
        found.add((1, 0))
    if rest:
        found.add((2, len(lines) + 1))
    names = set()
    for place, line in enumerate(lines, 1):
        t = T_LINE.fullmatch(line)
        if not t:
            found.add((2, place))
            continue
        if place > 200:
            found.add((4, place))
        if t[1] in names:
            found.add((5, place))
        names.add(t[1])
    return found


def answer_of(old, new, tests, out):
    """What stands after the name in the line that is expected, or None where that is in doubt."""
    if not out.startswith(b'refused,'):
        return 'read'
    refusal = tuple(int(field) for field in out.split(b',')[1:])
    if refusal[0] in (10, 15):
        return 'read'
    answer = '%d,%d' % refusal
    for found, told in ((faults(old), 'old,' + answer), (faults(new), 'new,' + answer), (lift_faults(tests), 'read')):
        if found:
            return told if refusal in found else None
    return None


# ---- texts at the limits


def text_of(*lines):
    return ''.join(line + '\n' for line in lines).encode('latin-1')


UP = ['P,up', 'N,E,,', 'N,X,,']
SMALL = text_of(*UP, 'B,0,-,1')


def step(label='s', word='w', name='p'):
    """A procedure with one step, whose label is in line 3 and whose edge is in line 6."""
    return text_of('P,' + name, 'N,E,,', 'N,S,%s,' % label, 'N,X,,', 'B,0,-,1', 'B,1,%s,2' % word)


def with_nodes(count):
    """An E, steps in a chain, and an X: N lines from line 2 on."""
    chain = ['B,%d,w,%d' % (i, i + 1) for i in range(1, count - 1)]
    return text_of('P,p', 'N,E,,', *['N,S,s,'] * (count - 2), 'N,X,,', 'B,0,-,1', *chain)


def with_edges(count):
    """128 steps, eight edges at each but perhaps the last: 130 N lines from line 2 on, then B lines from line 132 on."""
    leaving = ['B,%d,w%d,129' % (1 + k // 8, k % 8) for k in range(count - 1)]
    return text_of('P,p', 'N,E,,', *['N,S,s,'] * 128, 'N,X,,', 'B,0,-,1', *leaving)


def with_procedures(count):
    """Procedures of four lines each."""
    return b''.join(text_of('P,p%d' % k, 'N,E,,', 'N,X,,', 'B,%d,-,%d' % (2 * k, 2 * k + 1)) for k in range(count))


def largest():
    """512 nodes and 1,024 edges, 436 of the nodes calls, with every name, label and word of a step as long as it may be."""
    name, label, word = 'n' * 12, 'l' * 60, 'w' * 7
    nodes = ['N,E,,'] + ['N,C,%s,%s' % (label, name)] * 436 + ['N,S,%s,' % label] * 74 + ['N,X,,']
    edges = ['B,0,-,1'] + ['B,%d,-,%d' % (n, n + 1) for n in range(1, 437)]
    edges += ['B,%d,%s%d,511' % (437 + k // 8, word, k % 8) for k in range(1024 - len(edges))]
    return text_of('P,' + name, *nodes, *edges)


def with_digits(length):
    """A text of so many bytes, by the digits of the number that ends line 5."""
    start = text_of(*UP, 'B,0,-,1') + b'B,0,w,'
    return start + b'1' * (length - len(start) - 1) + b'\n'


def made_cases():
    """Names, texts and answers: 'read', or number and place of the refusal."""
    # A number has any length; one too large names no node. Cut to 64 bits, these would be 1, 1 and 0, which are nodes.
    yield 'number-20-digits', text_of(*UP, 'B,0,-,18446744073709551617'), (6, 4)
    yield 'number-3000-digits', text_of(*UP, 'B,0,-,18446744073709551616' + '0' * 2979 + '1'), (6, 4)
    yield 'number-20-digits-first', text_of(*UP, 'B,18446744073709551616,-,1'), (6, 4)
    # The first number past the nodes names none; a node of another procedure is none of this one.
    yield 'number-past-the-nodes', text_of(*UP, 'B,0,-,2'), (6, 4)
    yield 'number-of-another', SMALL + text_of('P,q', 'N,E,,', 'N,X,,', 'B,2,-,1'), (6, 8)
    # A number has no leading zero, and at least one digit.
    yield 'number-leading-zero', text_of(*UP, 'B,0,-,01'), (2, 4)
    yield 'number-two-zeros', text_of(*UP, 'B,00,-,1'), (2, 4)
    yield 'number-empty', text_of(*UP, 'B,0,-,'), (2, 4)
    # A last line without byte 10 is malformed, an empty program is line 1, and an empty line is of no kind.
    yield 'no-last-byte', SMALL[:-1], (2, 4)
    yield 'empty', b'', (2, 1)
    yield 'empty-line', b'\n', (2, 1)
    yield 'empty-last-line', SMALL + b'\n', (2, 5)
    # 65,536 bytes are allowed: what is refused is the number in line 5, as it names no node. One more is too long, whatever the lines are.
    yield 'text-65536', with_digits(65536), (6, 5)
    yield 'text-65537', with_digits(65537), (1, 0)
    yield 'text-65537-empty-lines', b'\n' * 65537, (1, 0)
    # 512 nodes and 1,024 edges at once. By its longest lines a program has at most 64 * 15 + 512 * 78 + 1,024 * 19 = 60,352 bytes, so none
    # that is read can have 65,536.
    yield 'largest', largest(), 'read'
    # At most 512 nodes: the 513th N line is line 514. An N after a B is 3, which comes before its 4.
    yield 'nodes-512', with_nodes(512), 'read'
    yield 'nodes-513', with_nodes(513), (4, 514)
    yield 'nodes-513-after-edge', text_of('P,p', 'N,E,,', *['N,S,s,'] * 511, 'B,0,-,1', 'N,X,,'), (3, 515)
    # At most 1,024 edges: the 1,025th B line is line 131 + 1,025. Its 4 comes before the 6 of its number and the 7 of its word.
    yield 'edges-1024', with_edges(1024), 'read'
    yield 'edges-1025', with_edges(1025), (4, 1156)
    yield 'edges-1025-bad-number', with_edges(1024) + text_of('B,999,w,0'), (4, 1156)
    yield 'edges-1025-same-word', with_edges(1024) + text_of('B,1,w0,2'), (4, 1156)
    # At most 64 procedures: the 65th P line is line 257. The 8 of the procedure before it, at line 253, comes before its 4.
    yield 'procedures-64', with_procedures(64), 'read'
    yield 'procedures-65', with_procedures(65), (4, 257)
    yield 'procedures-65-after-broken', with_procedures(63) + text_of('P,p63', 'N,E,,', 'N,X,,', 'P,p64'), (8, 253)
    # Labels have at most 60 bytes, words 8, and names, of callees too, 12; one too long is malformed. Each has at least one byte.
    yield 'label-60', step(label='l' * 60), 'read'
    yield 'label-61', step(label='l' * 61), (2, 3)
    yield 'label-empty', step(label=''), (2, 3)
    yield 'word-8', step(word='w' * 8), 'read'
    yield 'word-9', step(word='w' * 9), (2, 6)
    yield 'word-empty', step(word=''), (2, 6)
    yield 'name-12', step(name='n' * 12), 'read'
    yield 'name-13', step(name='n' * 13), (2, 1)
    yield 'name-empty', step(name=''), (2, 1)
    for size, answer in (12, 'read'), (13, (2, 3)):
        lines = ['P,' + 'n' * 12, 'N,E,,', 'N,C,c,' + 'n' * size, 'N,X,,', 'B,0,-,1', 'B,1,-,2']
        yield 'callee-%d' % size, text_of(*lines), answer
    # The first and last bytes of labels (32 to 126), words (33 to 126) and names (0-9 A-Z _ a-z), and those beside them. None has the comma.
    for byte in 0, 31, 32, 43, 44, 45, 126, 127, 255:
        yield 'label-byte-%d' % byte, step(label=chr(byte)), 'read' if byte in (32, 43, 45, 126) else (2, 3)
    for byte in 0, 32, 33, 43, 44, 45, 126, 127, 255:
        yield 'word-byte-%d' % byte, step(word=chr(byte)), 'read' if byte in (33, 43, 45, 126) else (2, 6)
    for byte in b'/09:@AZ[^_`az{-,':
        yield 'name-byte-%d' % byte, step(name=chr(byte)), 'read' if byte in b'09AZ_az' else (2, 1)
    # Each kind has its fields: E and X leave the last two empty, S the last, C none. A comma too many or too few is malformed.
    nodes = ['N,E,e,', 'N,E,,up', 'N,E,', 'N,E,,,', 'N,S,s,up', 'N,S,s', 'N,C,c,', 'N,C,,up', 'N,X,,up', 'N,D,,', 'N,,,']
    for k, line in enumerate(nodes):
        yield 'node-fields-%d' % k, text_of('P,up', line), (2, 2)
    edges = ['B,0,-', 'B,0,-,1,', 'B,,-,1', 'b,0,-,1', ' B,0,-,1', 'B,0,-,1 ', 'B,0,-,1\r', 'B,-0,-,1', 'B,+0,-,1']
    for k, line in enumerate(edges):
        yield 'edge-fields-%d' % k, text_of(*UP, line), (2, 4)
    # Lines out of place: N or B before the first P, N after a B of its procedure; a new procedure may have N lines again.
    yield 'node-before-procedure', text_of('N,E,,'), (3, 1)
    yield 'edge-before-procedure', text_of('B,0,-,1'), (3, 1)
    yield 'node-after-edge', SMALL + text_of('N,S,s,'), (3, 5)
    yield 'two-procedures', with_procedures(2), 'read'
    # The place of 8 is the procedure's own P line. It is tested at the next well-formed P line, before that line's 5, or at the end of text.
    yield 'broken-at-next', text_of('P,a', 'P,b'), (8, 1)
    yield 'broken-at-same-name', text_of('P,a', 'P,a'), (8, 1)
    yield 'broken-next-malformed', text_of('P,a', 'P,b c'), (2, 2)
    yield 'broken-next-unended', b'P,a\nP,b', (2, 2)
    yield 'broken-then-malformed', text_of('P,a', 'x'), (2, 2)
    yield 'broken-last', SMALL + text_of('P,q', 'N,E,,'), (8, 5)
    yield 'two-exits', text_of('P,up', 'N,E,,', 'N,X,,', 'N,X,,', 'B,0,-,1'), (8, 1)
    yield 'two-entries', text_of('P,up', 'N,E,,', 'N,E,,', 'N,X,,', 'B,0,-,2', 'B,1,-,2'), (8, 1)
    yield 'edge-from-exit', SMALL + text_of('B,1,-,0'), (8, 1)
    yield 'no-edge-from-entry', text_of(*UP), (8, 1)
    yield 'step-without-edge', text_of('P,p', 'N,E,,', 'N,S,s,', 'N,X,,', 'B,0,-,1'), (8, 1)
    # The edge of an E or a C has the word `-`; one of a step may have it too. Nodes stand in any order, and an edge may lead to an E.
    yield 'word-of-entry', text_of(*UP, 'B,0,w,1'), (8, 1)
    yield 'word-of-call', text_of('P,p', 'N,E,,', 'N,C,c,p', 'N,X,,', 'B,0,-,1', 'B,1,w,2'), (8, 1)
    yield 'word-dash-of-step', step(word='-'), 'read'
    yield 'nodes-in-any-order', text_of('P,p', 'N,X,,', 'N,S,s,', 'N,E,,', 'B,2,-,1', 'B,1,w,0', 'B,1,v,2'), 'read'
    # A word twice at one node is 7 at the second line, also where the node has too many edges. Two words at an E are one too many: 8.
    yield 'dash-twice-at-entry', SMALL + text_of('B,0,-,1'), (7, 5)
    yield 'two-words-at-entry', SMALL + text_of('B,0,w,1'), (8, 1)
    yield 'nine-edges', step() + text_of(*['B,1,w%d,2' % k for k in range(8)]), (8, 1)
    yield 'nine-edges-and-a-word-twice', step() + text_of(*['B,1,w%d,2' % k for k in range(8)], 'B,1,w,1'), (7, 15)
    yield 'same-word-at-two-nodes', with_nodes(4), 'read'
    # A name twice is 5 at the second P line. An unknown callee is 9 at the first such N line, after the 8 of the last procedure.
    yield 'name-twice', SMALL + text_of('P,up', 'N,E,,', 'N,X,,', 'B,2,-,3'), (5, 5)
    yield 'name-begins-another', SMALL + text_of('P,u', 'N,E,,', 'N,X,,', 'B,2,-,3'), 'read'
    calls = ['P,p', 'N,E,,', 'N,C,c,q', 'N,C,c,r', 'N,X,,', 'B,0,-,1', 'B,1,-,2', 'B,2,-,3']
    yield 'callee-unknown', text_of(*calls), (9, 3)
    yield 'callee-unknown-second', text_of(*calls, 'P,q', 'N,E,,', 'N,X,,', 'B,4,-,5'), (9, 4)
    yield 'callee-unknown-last-broken', text_of(*calls, 'P,q', 'N,E,,', 'N,X,,'), (8, 9)
    yield 'callee-later', text_of(*calls, 'P,q', 'N,E,,', 'N,X,,', 'B,4,-,5', 'P,r', 'N,E,,', 'N,X,,', 'B,6,-,7'), 'read'


# ---- writing


def head(name, old, new):
    line = b'%06d %06d %b' % (len(old), len(new), name.encode('ascii'))
    if len(name) > 32 or ' ' in name or max(len(old), len(new)) > LONGEST:
        raise SystemExit('the case %s does not fit the form of the data' % name)
    return line.ljust(47) + b'\n'


def folders(source):
    """The name of each case in the folder, and its files as bytes, by name."""
    for name in sorted(os.listdir(source)):
        folder = os.path.join(source, name)
        if not os.path.isdir(folder):
            continue
        files = {}
        for file in 'old', 'new', 'tests', 'out':
            with open(os.path.join(folder, file), 'rb') as f:
                files[file] = f.read()
        yield name, files


def main():
    if len(sys.argv) != 2:
        raise SystemExit('usage: read_vectors.py SOURCE_DIR')
    source = sys.argv[1]
    cases, left_out = [], []
    for name, files in folders(source):
        answer = answer_of(**files)
        if answer is None:
            left_out.append(name)
        else:
            cases.append((name, files['old'], files['new'], answer))
    given = len(cases)
    refused = sum(answer != 'read' for _, _, _, answer in cases)
    for name, text, answer in made_cases():
        found = faults(text)
        if found if answer == 'read' else answer not in found:
            raise SystemExit('the answer of the case %s does not fit the faults of its text' % name)
        cases.append(('made-' + name, text, SMALL, answer if answer == 'read' else 'old,%d,%d' % answer))
    names = [name for name, _, _, _ in cases]
    if len(set(names)) != len(names):
        raise SystemExit('two cases have one name')
    crate = os.path.join(REPOSITORY, 'crates', 'read_vectors')
    os.makedirs(os.path.join(crate, 'data'), exist_ok=True)
    with open(os.path.join(crate, 'data', 'cases'), 'wb') as f:
        for name, old, new, _ in cases:
            f.write(head(name, old, new) + old + new)
    with open(os.path.join(crate, 'stdout'), 'w') as f:
        for kind, (fewest, most) in EDGES.items():
            f.write('%s,%d,%d\n' % (kind, fewest, most))
        for name, _, _, answer in cases:
            f.write('%s,%s\n' % (name, answer))
    print('%d cases given: %d read, %d refused, %d left out in doubt' % (given + len(left_out), given - refused, refused, len(left_out)))
    for name in left_out:
        print('left out: ' + name)
    print('%d cases made' % (len(cases) - given))


if __name__ == '__main__':
    main()
