#!/usr/bin/env python3
"""Counts the places of docs/DESIGN-PASS.md in src/: `tools/places.py [--list] [POINT..]`, at the top of the repository."""
import collections, glob, re, sys

SOURCES = sorted(glob.glob('crates/*/src/*.rt'))


def lines_with(pattern):
    """Each line of src/ on which the pattern stands, but for comments."""
    found = []
    for path in SOURCES:
        for number, line in enumerate(open(path), 1):
            if not line.lstrip().startswith('//') and re.search(pattern, line):
                found.append(f'{path}:{number}: {line.strip()}')
    return found


def functions():
    """Each function: its file, name, parameters and the text of its contract."""
    for path in SOURCES:
        text = open(path).read()
        for match in re.finditer(r'^( *)(?:pub )?(?:extern "C" )?fn (\w+)(?:<[^{(]*?>)?\(', text, re.M):
            depth, end = 1, match.end()
            while depth:
                depth += {'(': 1, ')': -1}.get(text[end], 0)
                end += 1
            body = text.find('\n' + match.group(1) + '{', end)
            parts = re.split(r',(?![^<\[(]*[>\])])', text[match.end():end - 1])
            parameters = [re.sub(r'^mut ', '', ' '.join(part.split())) for part in parts if part.strip()]
            yield path, match.group(2), parameters, text[end:body if body > 0 else end]


def repeated(pieces_of):
    """What stands at three functions or more, and at which."""
    at = collections.defaultdict(list)
    for path, name, parameters, contract in functions():
        for piece in pieces_of(parameters, contract):
            at[piece].append(f'{path}: {name}')
    return [f'{piece}: {len(names)} functions' for piece, names in sorted(at.items()) if len(names) >= 3]


def facts(parameters, contract):
    """A contract's facts about one value: what a word of specs says of it, and its length."""
    asked = ' '.join(re.findall(r'requires[^{]*\{(.*?)\}\s*(?=requires|ensures|$)', contract, re.S))
    words = set(re.findall(r'\b(?:Sound\w+|\w+In|\w+Right|Standing|Working|Beside|StartsAt|HeadSets|\w+Fit|\w+Ready)\b', asked))
    return words | {f'length {of} ≡ {n}' for of, n in re.findall(r'length (\w+)\.(?:now|old) ≡ (\w+)', asked)}


def together(parameters, contract):
    """Three parameters or more of one name and type each."""
    sizes = [p for p in parameters if p not in ('out: &mut W', 'name: &[u8]', 'reader: &mut R')]
    return [', '.join(sizes[i:i + 3]) for i in range(len(sizes) - 2)]


def twins():
    at = collections.defaultdict(set)
    for path, name, parameters, contract in functions():
        at[name].add(path)
    return [f'{name}: {", ".join(sorted(paths))}' for name, paths in sorted(at.items()) if len(paths) > 1 and name != 'main']


def beside_length():
    """A buffer and a place in it, or a length beside it, as parameters."""
    return [
        f'{path}: {name}' for path, name, parameters, contract in functions()
        if any(re.search(r': &(?:\'a )?(?:mut )?\[', p) for p in parameters)
        and any(re.fullmatch(r'(?:i|k|at|n|len|from|to|s|start|left|count|p): usize', p) for p in parameters)
    ]


POINTS = {
    '1': ('numbers and flags for what is found', lambda: lines_with(
        r'\b(number|which): u8|\b(found|met): bool|Refused\(u8|^const (APART|PLACED|MET)|^enum Got'
        r'|-> (Refusal|Copy|Answer|Covered|Keeping|Found|Taken|Settled) *$'
        r'|\b(number|which|found|met|told|next|tried) (==|!=) [0-9A-Z]+|if !?(taken|found|settled)\.(found|met)|number: [0-9]+,')),
    '2': ('names of functions that stand in two files', twins),
    '3': ('loops that count by hand', lambda: lines_with(r'^\s*(while .*|.*\bloop) \{$')),
    '4': ('conversions, copies and comparisons by hand', lambda: lines_with(
        r'\bas (usize|u8|u16|u32|u64)\b|fn (wide|word|size|flag|lesser|least|within|lend|copied|put_word|same_atom|show_term|term|relation)\b')),
    '5a': ('facts in the contracts of three functions', lambda: repeated(facts)),
    '5b': ('three parameters that travel through three functions', lambda: repeated(together)),
    '6': ('functions of a buffer and a place or length beside it', beside_length),
    '7': ('functions told by a flag or a number what to do', lambda: [
        f'{path}: {name}' for path, name, parameters, contract in functions()
        if any(re.fullmatch(r'(?:careful|look|used|unknowns|helped): bool|table: usize|unknowns: u64|shift: u8', p) for p in parameters)]),
}

if __name__ == '__main__':
    wanted = [a for a in sys.argv[1:] if a != '--list'] or list(POINTS)
    for point in wanted:
        what, count = POINTS[point]
        found = count()
        print(f'{point}: {len(found)} {what}')
        if '--list' in sys.argv:
            print('\n'.join('    ' + place for place in found))
