#!/usr/bin/env python3
"""Respells the repository's own names as today's kit spells them: words, lemmas and fields in snake case, as edgeTaken to edge_taken and of-old to of_old.

usage: tools/respell.py [--check] [FOLDER]    in FOLDER (here, if left out), once, right after port.py; --check writes nothing and shows where names fall together

A name is the repository's own if a file of specs/ or proofs/ declares it or brings it in under that name. Functions of src/, exported names, strings and
the names that the prover makes stay. Where two names of one file would fall together, APART says what one of them is called.
"""
import collections
import glob
import os
import re
import sys

NAME = r'[^\s(){}.;,@"«»:=|`]+'
WORD = re.compile(r'[^\s(){}.;,@"«»`]+')
SIG = re.compile(r'^\s*(?:abbrev |unfoldable |pub )*((?:%s )*%s)(?:\s*\{[^}]*\}|\s*\([^)]*\))*\s+:\s' % (NAME, NAME))
RULES = re.compile(r'^\s*(?:pub )?ruleset (%s)' % NAME)
LET = re.compile(r'\blet (%s) [:=]' % NAME)
AS = re.compile(r'\bas ([a-z][A-Za-z0-9-]*)')
USE = re.compile(r'(?<![\w-])use ([\w.]+)\.\{([^}]*)\}')
BACKTICKS = re.compile(r'`[^`\n]*`')

# (the file that declares the name, the name): what it is called from now on. A lemma that would have its function's name gets `_lem`.
APART = {
    ('rules/specs/Sheet.antt', 'headLine'): 'head_text',
    ('rules/specs/Sheet.antt', 'mLine'): 'm_text',
    ('rules/specs/Sheet.antt', 'dLine'): 'd_text',
    ('rules/specs/Sheet.antt', 'rLine'): 'r_text',
    ('rules/specs/Sheet.antt', 'endLine'): 'end_text',
    ('rules/specs/Sheet.antt', 'qLine'): 'q_text',
    ('rules/specs/Sheet.antt', 'vLine'): 'v_text',
    ('rules/specs/Layout.antt', 'procLine'): 'line_of_proc',
    ('rules/specs/Layout.antt', 'nodeLine'): 'line_of_node',
    ('rules/specs/Layout.antt', 'edgeLine'): 'line_of_edge',
    ('rules/specs/Layout.antt', 'testLine'): 'line_of_test',
    ('rules/specs/Job.antt', 'write-program'): 'write_back',
    ('rules/specs/Job.antt', 'read-old'): 'call_old',
    ('rules/specs/Job.antt', 'read-new'): 'call_new',
    ('rules/specs/Job.antt', 'read-tests'): 'call_tests',
    ('rules/specs/Job.antt', 'reset-job'): 'call_reset',
    ('rules/specs/Job.antt', 'make-request'): 'call_request',
    ('rules/specs/Promises.antt', 'too_many'): 'over_limit',
    ('rules/specs/Proofs/Written.antt', 'too_many'): 'over_limit',
    ('job_calls/proofs/Back.antt', 'lent-job'): 'this_job',
    ('job_calls/proofs/Laws.antt', 'lent-job'): 'this_job',
    ('reader/proofs/Steps.antt', 'proc-lines'): 'proc_line_rules',
    ('reader/proofs/Stores.antt', 'with-edge'): 'listing_with_edge',
    ('reader/proofs/Stores.antt', 'with-node'): 'listing_with_node',
    ('reader/proofs/Stores.antt', 'edge_row'): 'row_of_edge',
}
LEMMAS = {
    'rules/specs/Proofs/BackLaws.antt': 'in-part by_side label-in callee-in',
    'rules/specs/Proofs/Closure.antt': 'edge_kept',
    'rules/specs/Proofs/Places.antt': 'label-part',
    'rules/specs/Proofs/ProgramLaws.antt': 'kind-field',
    'rules/specs/Proofs/SheetLaws.antt': 'sheet-lines',
    'rules/specs/Proofs/StoredSheets.antt': 'former-alike former-broken',
    'rules/specs/Proofs/WriteProgram.antt': 'is-node proc-lines read-text take-proc edges-kept',
    'rules/specs/Proofs/WriteSuite.antt': 'none-set read-tests row_fine',
    'rules/specs/Theorems.antt': 'label-shown',
    'laws/specs/Bits.antt': 'bit-and',
    'laws/specs/BitSets.antt': 'bit-or bit_in',
    'laws/specs/TestLaws.antt': 'any-of',
    'lent_tests/specs/LeftLaws.antt': 'bit_in',
    'pairset/specs/StoreLaws.antt': 'all-pairs danger-bit',
    'versions/specs/Opposite.antt': 'side-of',
    'job/proofs/Laws.antt': 'with-old',
    'job/proofs/NewLaws.antt': 'with-new new-job',
    'job/proofs/TestsLaws.antt': 'with-tests',
    'job_calls/proofs/Laws.antt': 'goes-held refused-counts part-shown part-found',
    'lent_job/specs/DueLaws.antt': 'goes-held',
    'lent_job/specs/Stages.antt': 'is-left job-new job-old job-tests tests-long',
    'lent_job/specs/HeldLaws.antt': 'edge_in node_in',
    'reader/proofs/Callees.antt': 'is-callees',
    'reader/proofs/Completeness.antt': 'kind-at',
    'reader/proofs/Leaves.antt': 'stored-edge stored-node',
    'reader/proofs/Programs.antt': 'has-edge',
    'records/specs/Walking/Calls.antt': 'lasts_on left-on owns-on toks-on',
    'selection/proofs/Counterparts.antt': 'goes_on edge_kept',
    'selection/proofs/Dangers.antt': 'hit-at',
    'selection/specs/DangerLaws.antt': 'row-meets',
    'sheet_reader/proofs/Steps.antt': 'edge-count test-count',
    'suite/proofs/Forms.antt': 'none-set',
    'writeback/proofs/Parts.antt': 'name-same node-same word_same',
    'writeback/specs/PartLaws.antt': 'names-long parts_same',
    'writer/proofs/Sheets.antt': 'repeat-text table-text',
    'writer/specs/Laws.antt': 'probes-text',
}


def respelled(name):
    if not name[0].islower() or '◌' in name or not (re.search(r'[a-z0-9][A-Z]', name) or '-' in name):
        return name
    return re.sub(r'(?<=[a-z0-9])[A-Z]', lambda m: '_' + m.group(0).lower(), name).replace('-', '_')


for place, names in LEMMAS.items():
    for name in names.split():
        APART[place, name] = respelled(name) + '_lem'


def made(path):
    return path.endswith('/Proof.antt')


def read(path):
    with open(path, encoding='utf-8') as f:
        return f.read()


def declared(text, rt):
    """The names that a file declares, or brings in under a name of its own."""
    names = set()
    for line in text.split('\n'):
        if line.lstrip().startswith(('--', '//')):
            continue
        if not rt:
            m = SIG.match(line)
            if m and not line.lstrip().startswith(('use ', 'module ', 'record ', 'data ', 'pub record ', 'pub data ')):
                names.update(m.group(1).split(' '))
            m = RULES.match(line)
            if m:
                names.add(m.group(1))
            names.update(LET.findall(line))
    for m in USE.finditer(text):
        names.update(AS.findall(m.group(2)))
    return names


class Names:
    def __init__(self, files):
        self.texts = {f: read(f) for f in files}
        self.places = {f: f.split('crates/', 1)[-1] for f in files}
        self.crates = {p.split('/')[0] for p in self.places.values()}
        own = set()
        for f, t in self.texts.items():
            if not made(f):
                own |= declared(t, f.endswith('.rt'))
        self.table = {n: respelled(n) for n in own if respelled(n) != n}

    def of(self, f):
        """What each name is called in the file f: where it is declared or imported from decides, else the table."""
        here = {}
        for m in USE.finditer(self.texts[f]):
            parts = m.group(1).split('.')
            if parts[0] != 'Rattle' or parts[1] not in self.crates:
                here.update((n, n) for n in (i.split()[0] for i in m.group(2).split(',') if i.split()) if n in self.table)
            if len(parts) > 2 and parts[0] == 'Rattle' and parts[2] in ('specs', 'proofs'):
                place = '/'.join(parts[1:]) + '.antt'
                for item in m.group(2).split(','):
                    name = item.split()[0] if item.split() else ''
                    if (place, name) in APART:
                        here[name] = APART[place, name]
        for (place, name), new in APART.items():
            if place == self.places[f]:
                here[name] = new
        return {**self.table, **here}


def generated(root):
    """Names of src/ as the prover spelled them: they are parts of paths in the files that it made."""
    names = set()
    for f in glob.glob(root + '/crates/*/src/*.rt'):
        names.update(n.replace('_', '-') for n in re.findall(r'\b[a-z][a-z0-9_]*\b', read(f)))
    return names


def turn(text, names, keep):
    return WORD.sub(lambda m: m.group(0) if m.group(0) in keep else names.get(m.group(0), m.group(0)), text)


def turn_antt(text, names):
    out = []
    for line in text.split('\n'):
        i = re.search(r'(^|\s)--', line)
        code, remark = (line[: i.start()], line[i.start() :]) if i else (line, '')
        out.append(turn(code, names, ()) + BACKTICKS.sub(lambda m: turn(m.group(0), names, ()), remark))
    return '\n'.join(out)


def turn_rt(text, names):
    """Clauses and `ghost use` items, and what stands in backticks in remarks."""
    out, deep, ghost = [], 0, False
    for line in text.split('\n'):
        if line.lstrip().startswith('//'):
            out.append(BACKTICKS.sub(lambda m: turn(m.group(0), names, ()), line))
            continue
        if not ghost and re.match(r'\s*(ghost use|requires|ensures|ghost)\b', line):
            ghost, deep = True, 0
        if ghost:
            deep += line.count('{') - line.count('}')
            line = turn(line, names, ('requires', 'ensures'))
            ghost = deep > 0
        out.append(line)
    return '\n'.join(out)


def turn_made(text, names, keep):
    """A proof along the code: imports and terms are turned, but no name that the prover made."""
    given = set(re.findall(r'^(%s) : tie\.' % NAME, text, re.M)) | set(re.findall(r'^pub (%s-spec) ' % NAME, text, re.M))
    return turn_antt(text, {n: v for n, v in names.items() if n not in given and n not in keep})


def main():
    check = '--check' in sys.argv
    root = next((a for a in sys.argv[1:] if not a.startswith('-')), '.')
    files = sorted(
        f
        for kind in ('crates/*/specs/**/*.antt', 'crates/*/proofs/**/*.antt', 'crates/*/src/*.rt')
        for f in glob.glob(os.path.join(root, kind), recursive=True)
    )
    names, keep = Names(files), generated(root)
    for f in files:
        text, here = names.texts[f], names.of(f)
        if check:
            if f.endswith('.rt') or made(f):
                continue
            code = re.sub(r'(^|\s)--[^\n]*', '', text)
            meet = collections.defaultdict(set)
            for t in set(WORD.findall(code)):
                meet[here.get(t, t)].add(t)
            for t, v in sorted(meet.items()):
                if len(v) > 1:
                    print('together:', names.places[f], t, *sorted(v))
            continue
        new = turn_rt(text, here) if f.endswith('.rt') else turn_made(text, here, keep) if made(f) else turn_antt(text, here)
        if new != text:
            with open(f, 'w', encoding='utf-8') as g:
                g.write(new)


main()
