#!/usr/bin/env python3
"""Lists the places in crates/*/src that docs/DESIGN-PASS.md counts.

    tools/count_places.py [COMMIT]     a line for each place, then the counts; without COMMIT the working tree

A place is found by its text, so a listed one may be fine as it is; the page says which are, and why.
"""
import collections
import re
import subprocess
import sys

COMMIT = sys.argv[1] if len(sys.argv) > 1 else None


def run(*words):
    return subprocess.run(words, check=True, capture_output=True, text=True).stdout


def sources():
    listed = run('git', 'ls-tree', '-r', '--name-only', COMMIT, 'crates') if COMMIT else run('git', 'ls-files', 'crates')
    for path in listed.split('\n'):
        if '/src/' in path and path.endswith('.rt'):
            yield path, run('git', 'show', f'{COMMIT}:{path}') if COMMIT else open(path).read()


FILES = list(sources())
# Tests are left out: their text is what a reader is to see of the calls.
CODE = [(path, text) for path, text in FILES if not path.startswith('crates/worked/')]

# What a line of code says, for the points that a line shows.
LINES = {
    '1 an own enum': r'^\s*(pub )?enum ',
    '1 an Option that holds the error': r'-> Option<Refusal>|return Some\(refusal\)',
    '1 an error handed on by a match': r'Err\((\w+)\) => (return )?Err\(\1\)|Err\(_\) => (return )?Err\(',
    '1 a result that is only a number to have one': r'^pub fn \w+_law\(\) -> u8|^pub fn worked_examples\(\) -> u8',
    '3 a loop with an index or a count': r'\bfor .*(\.enumerate\(\)|\d\.\.|\.\.=)|\bwhile\b|\bloop\b|(saturating|wrapping)_add\(1\)|\+= 1;',
    '4 a trait of the library by hand': r'^\s*impl.* (PartialEq|Eq|PartialOrd|Ord|Clone|Copy|Debug|(fmt::)?Display|From<.*>|TryFrom<.*>) for ',
    '4 a conversion or an order as a function': r'fn (symbol|number|layer|place|reason|refused|digits|tag_of|number_and_class|digit_of|joined_digit|comes_before|told|capped|length)\(',
    '6 an array, a list or a text': r'Vec<|\[\w+; ?\w+\]|&(mut )?\[|String',
    '7 a function or a trait object as a value': r'\bdyn\b|\bfn\(|impl Fn',
}


def matches(pattern):
    for path, text in CODE:
        for at, line in enumerate(text.split('\n'), 1):
            if not line.lstrip().startswith('//') and re.search(pattern, line):
                yield f'{path}:{at}: {line.strip()}'


def functions():
    """Each function: path, name, head, clauses, body."""
    for path, text in CODE:
        lines = text.split('\n')
        for at, line in enumerate(lines):
            name = re.match(r'\s*(?:pub(?:\(\w+\))? )?(?:const )?fn (\w+)', line)
            if not name:
                continue
            indent = re.match(r'\s*', line).group()
            end = at
            # a declaration ends in `;` before any `{`, and a body at the brace that closes it
            while not (lines[end].startswith((indent + '}', indent + '{}')) or lines[end].endswith('{}')
                       or (lines[end].endswith(';') and not re.search(r'^\s*\{|\{$', '\n'.join(lines[at:end + 1]), re.M))):
                end += 1
            whole = '\n'.join(lines[at:end + 1])
            clauses = re.findall(r'(requires|ensures)\s+(?:\w+ )?\{(.*)\}', whole)
            head = re.split(r'\n\s*(?:requires|ensures|\{|where)', whole)[0]
            body = '\n'.join(l for l in lines[at + 1:end + 1] if not re.match(r'\s*(requires|ensures|//)', l))
            yield f'{path}:{at + 1}', name.group(1), head, clauses, body


ALL = list(functions())


def twins():
    """Functions whose bodies are the same but for names and numbers (three lines or more)."""
    shapes = collections.defaultdict(list)
    for place, name, _head, _clauses, body in ALL:
        shape = re.sub(r'\w+', 'x', re.sub(r'\s+', ' ', body))
        if body.count('\n') >= 2 and len(shape) > 12:
            shapes[shape].append(f'{place}: {name}')
    return [' | '.join(group) for group in shapes.values() if len(group) > 1]


def plain(clause):
    """A premise with its subject's name, and the path of a meaning, taken out."""
    clause = re.sub(r'\b(\w\.)?FieldCode\.meaning\b', 'meaning', clause)
    return re.sub(r'\b(values|sides|elements|code|self|first|second|chip)\b', '_', clause).strip()


def facts():
    """Premises that stand in three functions or more, but for the names of what they speak of."""
    found = collections.defaultdict(list)
    for place, name, _head, clauses, _body in ALL:
        for kind, clause in clauses:
            if kind == 'requires':
                found[plain(clause)].append(f'{place}: {name}')
    return [f'{len(v)} x {k}: ' + ' | '.join(v) for k, v in found.items() if len(v) > 2]


def together():
    """Pairs of parameters, by name and type, that three functions or more take."""
    found = collections.defaultdict(list)
    for _place, name, head, _clauses, _body in ALL:
        inside = head[head.index('('):]
        parameters = re.findall(r'(\w+): ([^,()]+(?:\([^)]*\))?[^,()]*)', inside.split('->')[0])
        named = sorted(p for p, _ in parameters if not p.startswith('_'))
        for i, a in enumerate(named):
            for b in named[i + 1:]:
                found[a, b].append(name)
    return [f'{a}, {b}: ' + ' '.join(v) for (a, b), v in found.items() if len(v) > 2]


PLACES = {name: list(matches(pattern)) for name, pattern in LINES.items()}
PLACES['2 functions of one shape'] = twins()
PLACES['5 a premise in three functions or more'] = facts()
PLACES['5 parameters in three functions or more'] = together()

for name in sorted(PLACES):
    for place in PLACES[name]:
        print(f'{name}: {place}')
print()
for name in sorted(PLACES):
    print(f'{len(PLACES[name]):4}  {name}')
