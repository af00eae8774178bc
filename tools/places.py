#!/usr/bin/env python3
"""places.py [--list N]: counts the places of the design pass (docs/DESIGN-PASS.md), in the tree that it is run in.

For the points 1 to 7 it reads crates/*/src/*.rt, for point 8 the files Answers.antt in crates/*/proofs. It prints how many places match each
pattern, and how many places each point has in each crate. A place is a line of a file; a line that matches two patterns of a point counts once
for the point. For point 8 the crates have their answers counted (8b). `--list N` prints the places instead, of the point or the pattern N, as
FILE:LINE: PATTERN: WHAT; the functions of a cluster of twins stand together.

What a pattern finds is a place to look at, and no fault: it goes by the text of a line, a signature or a body, and by the layout of `rt fmt`.
"""
import collections
import difflib
import glob
import re
import sys

PATTERNS = {
    '1a': 'an own enum of two variants, of which one has a value (as Option) or both have (as Result)',
    '1b': 'an own struct that has the fields number and place, or a flag (bool) beside values',
    '1c': 'a function that answers one of these types',
    '1d': 'a function that answers a number and says `1 + ..` or `.. or 0` above, or `The same` below one that does; or says `x - 1` of a parameter',
    '1e': 'x - 1, where x is what a call answered, behind a test that x is not 0',
    '1f': 'one more than a limit for too many, with the functions that have a limit and answer a count; 65537 for no number; the tests for both',
    '1g': 'a kind, class, side, stage, rule or request compared with a number',
    '1h': 'a test whether the number of a refusal is 0, or whether a file came',
    '1i': 'the number of a refusal, or of a broken rule, as a literal or a constant',
    '1j': 'a literal handed on for a kind, class, side, rule or number of a row',
    '2a': 'functions whose bodies are the same but for names, types and numbers (of 10 tokens or more)',
    '2b': 'functions of 30 tokens or more whose bodies, so compared, differ by a twentieth at most',
    '2c': 'structs with fields of the same types in the same order, of which two or more have the same names',
    '3a': 'a `while` whose condition has a name that the body steps: +=, -=, x = x + .., or x = y',
    '4a': 'a value of a struct that takes two or more fields from one other value',
    '4b': 'a value of a struct of which three or more fields are 0 or false',
    '4c': 'a function that compares two values field by field, or two flags case by case',
    '4d': 'the lesser or the greater of two by an if',
    '4e': 'a chain of ifs, or a match, that turns each case into a constant',
    '4f': 'a loop that stores one element after another',
    '4g': 'number and place taken out of one number, or put into it',
    '4h': 'a function that prints by two or more calls',
    '4i': 'a function of which the body is the value of a struct, and nothing else',
    '4j': 'a function that copies two or more fields of one value into locals',
    '4k': 'a function that stores two or more fields of one value in a table, or takes two or more numbers out of one',
    '5a': 'a function whose parameters have two or more of text, nodes and links of one version',
    '5b': 'a function that has the links or nodes of both versions',
    '5c': 'a function whose parameters have two or more of text, tests and rows of the tests',
    '5d': 'a clause `requires` with a fact that three or more functions ask for',
    '6a': 'a function that takes an output and a place, and answers the next place',
    '6b': 'a table, and as another parameter how many rows of it count (COUNTED says which names)',
    '6c': 'start and length as two parameters or two fields',
    '6d': 'a row of a table by arithmetic on its number',
    '7a': 'a parameter that is a number, compared with literals two or more times; or a kind, rule or side, once',
    '7b': 'a parameter that is a flag, and is tested',
    '7c': 'a literal handed on for such a parameter',
    '8a': 'a file Answers.antt',
    '8b': 'an answer',
    '8c': 'an answer that is a search and nothing else, whatever it searches in',
    '8d': 'such an answer that is `search (all, rules)` or `search rules`',
    '8e': 'a file Answers.antt of nothing but such searches (8c)',
}
VERSIONS = [('ot', 'on', 'ol'), ('nt', 'nn', 'nl'), ('text', 'nodes', 'links'), ('text', 'nodes', 'lent'), ('old', 'old_nodes', 'old_links'),
            ('new', 'new_nodes', 'new_links'), ('old', 'room', 'joins'), ('new', 'space', 'links')]
TESTS = [('tt', 'tests', 'rows'), ('text', 'tests', 'rows'), ('test', 'tests', 'rows'), ('work', 'words', 'count')]
BOTH = [('ol', 'nl'), ('on', 'nn'), ('ot', 'nt'), ('old_links', 'new_links')]
COUNTED = {'w': 'count m pairs had', 'nodes': 'count n', 'links': 'procs edges', 'work': 'procs nodes count', 'tests': 'count', 'rows': 'count',
           'words': 'count', 'set': 'edges n', 'dangers': 'edges', 'after': 'edges', 'marks': 'n edges', 'table': 'n', 'scratch': 'n',
           'out': 'n', 'buffer': 'n', 'on': 'olds', 'nn': 'news'}
KEYWORDS = set('if else while loop for in let mut return match true false as fn impl break continue ref move'.split())
SWITCH = r'kind|rule|side|stage|request'

Fn = collections.namedtuple('Fn', 'file line name doc params answer clauses body first')
Type = collections.namedtuple('Type', 'file line kind name fields')


def crate_of(file):
    return file.split('/')[1]


def code(line):
    return line.split('//')[0].rstrip()


def brackets(text):
    """A text with blanks for the arrows and the signs that are no brackets: a `<` or `>` with a blank before and behind it."""
    return re.sub(r'[-=]>| (<<?|>>?)=?(?= )', lambda m: ' ' * len(m.group()), text)


def parts(text, by=','):
    """The parts of a text between the commas that stand in no brackets."""
    out, depth, last = [], 0, 0
    for i, c in enumerate(brackets(text)):
        depth += (c in '([{<') - (c in ')]}>')
        if c == by and depth == 0:
            out.append(text[last:i].strip())
            last = i + 1
    out.append(text[last:].strip())
    return [p for p in out if p]


def close(text, start):
    """The place behind the bracket that closes the one at `start`."""
    depth, flat = 0, brackets(text)
    for i in range(start, len(flat)):
        depth += (flat[i] in '([{<') - (flat[i] in ')]}>')
        if depth == 0:
            return i + 1
    return len(flat)


def read_file(file):
    """The functions and the types of a file, by its layout: an item ends with a line that is its indent and a bracket."""
    lines = open(file, encoding='utf-8').read().split('\n')
    fns, types = [], []
    for i, line in enumerate(lines):
        m = re.match(r'(\s*)(?:pub(?:\(\w+\))? )?(?:const |unsafe )*(?:extern "C" )?fn (\w+)', line)
        t = re.match(r'(\s*)(?:pub )?(struct|enum) (\w+)', line)
        if not m and not t:
            continue
        indent = (m or t).group(1)
        end = i
        if not re.search(r'[;}]$', code(line)):
            while end + 1 < len(lines) and not re.match(re.escape(indent) + r'[};]', lines[end]):
                end += 1
        above = i
        while above > 0 and re.match(r'\s*(//|#\[)', lines[above - 1]):
            above -= 1
        doc = ' '.join(x.strip(' /') for x in lines[above:i] if '//' in x)
        if t:
            inner = '\n'.join(code(x) for x in lines[i + 1:end])
            types.append(Type(file, i + 1, t.group(2), t.group(3), parts(inner)))
            continue
        open_at = next((k for k in range(i, end + 1) if lines[k].rstrip() == indent + '{' or
                        (re.search(r'\{$', code(lines[k])) and not re.match(r'\s*(requires|ensures)', lines[k]))), end)
        head = [code(x) for x in lines[i:open_at + 1]]
        first = next((k for k, x in enumerate(head) if re.match(r'\s*(requires|ensures)\b', x)), len(head))
        sig = ' '.join(x.strip() for x in head[:first]).rstrip('{ ')
        clauses = []
        for k in range(first, len(head)):
            if re.match(r'\s*(requires|ensures)\b', head[k]):
                clauses.append([i + 1 + k, head[k].strip()])
            elif clauses and head[k].strip() != '{':
                clauses[-1][1] += ' ' + head[k].strip()
        at = sig.index('fn ' + m.group(2)) + 3 + len(m.group(2))
        if sig[at:at + 1] == '<':
            at = close(sig, at)
        behind = close(sig, at)
        params = [tuple(x.strip() for x in p.split(':', 1)) if ':' in p else (p, '') for p in parts(sig[at + 1:behind - 1])]
        answer = sig[behind:].replace('->', '', 1).split(' where ')[0].strip()
        fns.append(Fn(file, i + 1, m.group(2), doc, params, answer, clauses, [code(x) for x in lines[open_at + 1:end]], open_at + 2))
    return lines, fns, types


def literals(text):
    """The values of structs in a text: offset, name, fields."""
    for m in re.finditer(r'\b([A-Z]\w*) \{', text):
        yield m.start(), m.group(1), parts(text[m.end():close(text, m.end() - 1) - 1])


def shape(body):
    """A body with each name or path, type and number as a placeholder."""
    text = re.sub(r'b?"[^"]*"|b\'.\'', '0', ' '.join(x.strip() for x in body))
    text = re.sub(r',(\s*[)\]}])', r'\1', text)
    tokens = re.findall(r'[A-Za-z_][\w:]*(?<!:)|\d\w*|[^\s\w]', text)
    return tuple(x if x in KEYWORDS or not re.match(r'\w', x) else '0' if x[0].isdigit() else 'x' for x in tokens)


def facts(clause):
    """The facts of a clause: what stands between the signs `×`."""
    inner = clause[clause.index('{') + 1:clause.rindex('}')]
    return [re.sub(r'^\((.*)\)$', r'\1', f.strip()) for f in parts(inner, '×')]


def options(types):
    names = {}
    for t in types:
        if t.kind == 'enum' and len(t.fields) == 2:
            with_value = sum('(' in f or '{' in f for f in t.fields)
            if with_value:
                names[t.name] = ('1a', t)
        if t.kind == 'struct' and len(t.fields) > 1:
            fields = {f.replace('pub ', '').split(':')[0]: f.split(':')[-1].strip() for f in t.fields if ':' in f}
            if {'number', 'place'} <= set(fields) or 'bool' in fields.values():
                names[t.name] = ('1b', t)
    return names


def point1(files, fns, types, note):
    own = options(types)
    for pattern, t in own.values():
        note(pattern, t.file, t.line, f'{t.kind} {t.name}')
    told, numbered = False, {}
    for f in fns:
        names = {p for p, _ in f.params}
        if own and re.search(r'\b(' + '|'.join(own) + r')\b', f.answer):
            note('1c', f.file, f.line, f'{f.name} -> {f.answer}')
        told = re.search(r'\b1 \+ |\bor 0\b(?! past)', f.doc) or (told and f.doc.startswith('The same'))
        less = any(re.search(r'\b' + re.escape(p) + r' - 1\b', f.doc) for p in names)
        if (f.answer == 'usize' and told) or less:
            note('1d', f.file, f.line, f'{f.name}: {f.doc[:90]}')
        if 'limit' in names and f.answer in ('usize', 'Growth'):
            note('1f', f.file, f.line, f.name)
        for i, (p, t) in enumerate(f.params):
            if t in ('usize', 'u8') and (re.fullmatch(SWITCH, p) or (p == 'k' and re.search(r'\b(class|number) k\b|\bk is \d', f.doc))):
                numbered[f.name] = i
        text = '\n'.join(f.body)
        for k, x in enumerate(f.body):
            m = re.search(r'(?<![\w.])(\w+) - 1\b', x)
            if m and re.search(r'\b0 < {0}\b|\b{0} (==|!=) 0\b|\b{0} < 1\b'.format(m.group(1)), text) and (
                    less or re.search(r'\b{0} = [\w:]+\('.format(m.group(1)), text)):
                note('1e', f.file, f.first + k, x.strip())
            if re.search(r'\breturn 1[34];|^\s+1[34]$', x) or (f.name == 'judge' and re.search(r'return [1-5];|^\s+1$', x)):
                note('1i', f.file, f.first + k, x.strip())
            number = '|number' if 'number' in names else ''
            if re.search(r'\b(kind(\([^()]*\))?|side|stage|rule|request|k' + number + r') [!=]= \d|\b\d < k\b', x):
                note('1g', f.file, f.first + k, x.strip())
            elif re.search(r'\b(number|due|number_of\(answer\)|line) [!=]= 0\b|!\w\.came\b', x):
                note('1h', f.file, f.first + k, x.strip())
    for f in fns:
        text = '\n'.join(f.body)
        for name, args, at in calls(text):
            if numbered.get(name, 99) < len(args) and re.fullmatch(r'\d+', args[numbered[name]]):
                note('1j', f.file, f.first + text[:at].count('\n'), f'{name}: {args[numbered[name]]}')
    for file, lines in files.items():
        for k, x in enumerate(code(x) for x in lines):
            if re.search(r'limit \+ 1|if (limit|work::MAX_PAIRS) < \w+ \{|(?<!; )\b65537\b|\b65536 < \w+ \{|\b1024 < seen|^\s+2048$', x):
                note('1f', file, k + 1, x.strip())
            if re.search(r'\b\w*refuse\w*\(\s*\d|\bnumber: [1-9]|TOO_MANY|number: over|place: rule', x):
                note('1i', file, k + 1, x.strip())


def point2(files, fns, types, note):
    groups = collections.defaultdict(list)
    for f in fns:
        s = shape(f.body)
        if len(s) >= 10 and (s.count('(') != 1 or '{' in s):    # one call with many arguments is no twin of another
            groups[s].append(f)
    for fs in sorted(groups.values(), key=lambda fs: -len(fs)):
        if len(fs) > 1:
            names = ', '.join(f'{crate_of(f.file)}::{f.name}' for f in fs)
            for f in fs:
                note('2a', f.file, f.line, names)
    long = [(s, fs[0]) for s, fs in groups.items() if len(s) >= 30]
    for i, (s, f) in enumerate(long):
        for r, g in long[:i]:
            match = difflib.SequenceMatcher(None, r, s, autojunk=False)
            if abs(len(r) - len(s)) * 20 <= len(r) + len(s) and match.quick_ratio() >= 0.95 and match.ratio() >= 0.95:
                for h in (f, g):
                    note('2b', h.file, h.line, f'{crate_of(f.file)}::{f.name}, {crate_of(g.file)}::{g.name}')
    fields = lambda t: [tuple(re.sub('pub ', '', x).split(': ')) for x in t.fields]
    structs = [t for t in types if t.kind == 'struct' and len(t.fields) > 1]
    for t in structs:
        for u in structs:
            same = set(x for x in fields(t) if x in fields(u))
            if t is not u and [x[-1] for x in fields(t)] == [x[-1] for x in fields(u)] and len(same) > 1:
                note('2c', t.file, t.line, f'{t.name}, {u.name}')


def loops(f):
    """The `while`s of a function: the line, the condition, the lines of the body."""
    for k, x in enumerate(f.body):
        m = re.match(r'(\s*)(?:\'\w+: )?while (.*) \{$', x)
        if m and not m.group(2).startswith('let '):
            end = next(j for j in range(k + 1, len(f.body)) if f.body[j] == m.group(1) + '}')
            yield f.first + k, m.group(2), f.body[k + 1:end]


def point3(files, fns, types, note):
    for f in fns:
        for line, condition, body in loops(f):
            for v in set(re.findall(r'(?<![\w.])[a-z_]\w*(?![\w(])', condition)):
                step = re.compile(r'^\s*{0} ([+-]= |= {0} [+-] |= \w+;$)'.format(v))
                if any(step.match(x) for x in body):
                    note('3a', f.file, line, f'{f.name}: while {condition}')


def point4(files, fns, types, note):
    for f in fns:
        text = '\n'.join(f.body)
        flat = ' '.join(text.split())
        for at, name, fields in literals(text):
            values = [x.split(':', 1)[1].strip() for x in fields if ':' in x]
            line = f.first + text[:at].count('\n')
            origins = collections.Counter(m.group(1) for v in values for m in [re.fullmatch(r'(\w+)\.\w+( \+ 1)?', v)] if m)
            if any(n > 1 for n in origins.values()):
                note('4a', f.file, line, f'{f.name}: {name}')
            if sum(v in ('0', 'false') for v in values) > 2:
                note('4b', f.file, line, f'{f.name}: {name}')
        if len(re.findall(r'\b(\w+)\.(\w+) [!=]= (?!\1\b)\w+\.\2\b', text)) > 1 or \
                re.fullmatch(r'if (\w+) \{ return (\w+); \} if \2 \{ return false; \} true', flat):
            note('4c', f.file, f.line, f.name)
        if re.search(r'if (\w+) <=? (\w+) \{ return (\1|\2); \} (\1|\2)$', flat):
            note('4d', f.file, f.line, f.name)
        arms = re.findall(r'(?:if (\w+) == \d+ \{|if text::same\((\w+), b"[^"]*"\) \{|[\w:]+(?:\([^()]*\))? => \{) return '
                          r'(?:b\'.\'|\d+|true|false|[A-Z]\w*::\w+(?:\([^()]*\))?|kind_if\(.*?\)|\w+\.\w+); \}', flat)
        if arms and max(collections.Counter(arms).values()) > 1:
            note('4e', f.file, f.line, f.name)
        for line, condition, body in loops(f):
            if any(re.match(r'\s*\w+\[\w+\] = ', x) for x in body):
                note('4f', f.file, line, f'{f.name}: while {condition}')
        for k, x in enumerate(f.body):
            if re.search(r'[/%] 4294967296|as u64 \* 4294967296 \+ \w+ as u64|\bpack\(\w+\.', x):
                note('4g', f.file, f.first + k, x.strip())
        if len(re.findall(r'write_all\(|print_field\(', text)) > 1:
            note('4h', f.file, f.line, f.name)
        if re.fullmatch(r'[A-Z]\w* \{[^{}]*\}', flat):
            note('4i', f.file, f.line, f.name)
        copied = collections.Counter(re.findall(r'^\s*let \w+ = (\w+)\.\w+;$', text, flags=re.M))
        if copied and max(copied.values()) > 1:
            note('4j', f.file, f.line, f.name)
        stored = collections.Counter(re.findall(r'\bput\(\w+, [^,]+, (\w+)\.\w+\)', text))
        taken = collections.Counter(re.findall(r'\blet \w+ = (?:text::)?get\((\w+),', text))
        if max([0, *stored.values(), *taken.values()]) > 1:
            note('4k', f.file, f.line, f.name)


def point5(files, fns, types, note):
    asked = collections.defaultdict(set)
    for f in fns:
        names = {p for p, t in f.params if t.startswith('&')}
        listed = f.name + '(' + ', '.join(p for p, _ in f.params) + ')'
        if any(len(names & set(g)) > 1 for g in VERSIONS):
            note('5a', f.file, f.line, listed)
        if any(names >= set(g) for g in BOTH):
            note('5b', f.file, f.line, listed)
        if any(len(names & set(g)) > 1 for g in TESTS):
            note('5c', f.file, f.line, listed)
        for line, clause in f.clauses:
            if clause.startswith('requires'):
                for fact in facts(clause):
                    asked[fact].add((f.file, line))
    for fact, at in asked.items():
        if len(at) > 2:
            for file, line in at:
                note('5d', file, line, fact)


def point6(files, fns, types, note):
    for f in fns:
        for (p, t), (q, u) in zip(f.params, f.params[1:]):
            if re.fullmatch(r'&(\'\w+ )?mut \[u8\]', t) and q == 'at' and f.answer == 'usize':
                note('6a', f.file, f.line, f.name)
            if p == 'start' and q == 'len':
                note('6c', f.file, f.line, f.name)
        numbers = {p for p, t in f.params if t == 'usize'}
        for p, t in f.params:
            if t.startswith('&') and numbers & set(COUNTED.get(p, '').split()):
                note('6b', f.file, f.line, f'{f.name}({p}, {", ".join(sorted(numbers & set(COUNTED[p].split())))})')
        for k, x in enumerate(f.body):
            if re.search(r'[(,] ?\d+ [*+] \(?\w|^\s+\d+ [*+] \w.*,$', x) and '%' not in x and 'At(' not in x:
                note('6d', f.file, f.first + k, x.strip())
    for t in types:
        names = [re.sub('pub ', '', x).split(':')[0] for x in t.fields]
        if 'start' in names and 'len' in names:
            note('6c', t.file, t.line, t.name)


def point7(files, fns, types, note):
    switches = {}
    for f in fns:
        text = '\n'.join(f.body)
        for i, (p, t) in enumerate(f.params):
            tests = len(re.findall(r'\b{0} [!=]= \d|\b\d+ < {0} \{{'.format(re.escape(p)), text))
            if t in ('usize', 'u8') and (tests > 1 or (tests and re.fullmatch(SWITCH, p))):
                note('7a', f.file, f.line, f'{f.name}({p})')
                switches[f.name] = i
            if t == 'bool' and re.search(r'\bif !?{0} \{{'.format(p), text):
                note('7b', f.file, f.line, f'{f.name}({p})')
                switches[f.name] = i
    for f in fns:    # what hands its parameter on to a switch is one too
        for i, (p, t) in enumerate(f.params):
            if t in ('usize', 'u8', 'bool') and f.name not in switches:
                for name, args, _ in calls('\n'.join(f.body)):
                    if name in switches and switches[name] < len(args) and args[switches[name]] == p:
                        note('7a' if t != 'bool' else '7b', f.file, f.line, f'{f.name}({p}), handed on to {name}')
                        switches[f.name] = i
    for f in fns:
        text = '\n'.join(f.body)
        for name, args, at in calls(text):
            if name in switches and switches[name] < len(args) and re.fullmatch(r'\d+|true|false', args[switches[name]]):
                note('7c', f.file, f.first + text[:at].count('\n'), f'{name}: {args[switches[name]]}')


def calls(text):
    """The calls in a text: name, arguments, offset."""
    for m in re.finditer(r'\b(\w+)\(', text):
        yield m.group(1), parts(text[m.end():close(text, m.end() - 1) - 1]), m.start()


def point8(note):
    for file in sorted(glob.glob('crates/*/proofs/*/Answers.antt')):
        text = re.sub(r'--.*', '', open(file, encoding='utf-8').read())
        answers = [(m.group(1), text[:m.start()].count('\n') + 1, m.group(2).split('=', 1)[-1].strip())
                   for m in re.finditer(r'^pub (\S+) :.*\n((?:(?!pub ).*\n)*)', text, flags=re.M)]
        alone = [a for a in answers if re.fullmatch(r'search (\([\w, ]*\brules\)|\w+)', a[2])]
        note('8a', file, 1, f'{len(answers)} answers')
        for name, line, _ in answers:
            note('8b', file, line, name)
        for name, line, body in alone:
            note('8c', file, line, f'{name} = {body}')
            if body in ('search (all, rules)', 'search rules'):
                note('8d', file, line, name)
        if len(alone) == len(answers):
            note('8e', file, 1, f'{len(answers)} answers')


def main():
    files, fns, types = {}, [], []
    for file in sorted(glob.glob('crates/*/src/*.rt')):
        files[file], more, others = read_file(file)
        fns += more
        types += others
    found = collections.defaultdict(list)
    for point in (point1, point2, point3, point4, point5, point6, point7):
        point(files, fns, types, lambda pattern, file, line, what: found[pattern].append((file, line, what)))
    point8(lambda pattern, file, line, what: found[pattern].append((file, line, what)))
    if '--list' in sys.argv:
        wanted = sys.argv[sys.argv.index('--list') + 1]
        for pattern in sorted(p for p in found if p.startswith(wanted)):
            for file, line, what in found[pattern] if pattern == '2a' else sorted(set(found[pattern])):
                print(f'{file}:{line}: {pattern}: {what}')
        return
    places = {p: {(f, n) for f, n, _ in found[p]} for p in PATTERNS}
    points = {n: set().union(*(places[p] for p in places if p[0] == n)) for n in '1234567'}
    points['8'] = places['8b']
    print('| pattern | what matches | places |\n|---|---|---|')
    for p in PATTERNS:
        print(f'| {p} | {PATTERNS[p]} | {len(places[p])} |')
    print('\n| crate | 1 | 2 | 3 | 4 | 5 | 6 | 7 | 8 |\n|---|---|---|---|---|---|---|---|---|')
    print('| all | ' + ' | '.join(str(len(points[n])) for n in points) + ' |')
    for crate in sorted({crate_of(f) for f in files}):
        print(f'| {crate} | ' + ' | '.join(str(sum(crate_of(f) == crate for f, _ in points[n])) for n in points) + ' |')


if __name__ == '__main__':
    main()
