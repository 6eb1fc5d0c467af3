"""docs/PROOFS.md lists the public functions that ask more than a sound book: each `pub fn` of crates/*/src with a `requires` other than `sound b ≡ true` stands in
a row of its crate there, each function of a row is one, and no C call asks anything."""
import glob
import os
import re
import sys

FUNCTION = re.compile(r'pub (?:const )?(extern "C" )?fn (\w+)')
SOUND = re.compile(r'sound \w+(?:\.old)? ≡ true')
HEADING = '## Public functions that ask more than a sound book'


def header_of(text, start):
    """from the function's name to the brace that opens its body"""
    depth = clause = 0
    for at in range(start, len(text)):
        if depth == 0 and re.match(r'\b(requires|ensures)\b', text[at:at + 8]):
            clause = 1
        elif text[at] == '{':
            if depth == 0 and not clause:
                return text[start:at]
            depth += 1
        elif text[at] == '}':
            depth -= 1
            clause = clause if depth else 0
    return text[start:]


def asked():
    """the pairs of crate and function, and the C calls that ask anything"""
    pairs, exported = set(), []
    for path in sorted(glob.glob('crates/*/src/**/*.rt', recursive=True)):
        with open(path, encoding='utf-8') as file:
            text = re.sub(r'//[^\n]*', '', file.read())
        for match in FUNCTION.finditer(text):
            clauses = re.findall(r'requires\*?\s*\w*\s*\{(.*?)\}\n', header_of(text, match.end()), re.S)
            if match.group(1) and clauses:
                exported.append(match.group(2))
            if any(not SOUND.fullmatch(clause.strip()) for clause in clauses):
                pairs.add((path.split(os.sep)[1], match.group(2)))
    return pairs, exported


def listed():
    with open('docs/PROOFS.md', encoding='utf-8') as file:
        section = file.read().split(HEADING)[1].split('\n## ')[0]
    for line in section.splitlines():
        cells = [cell.strip() for cell in line.split('|')]
        if line.startswith('|') and cells[1] not in ('crate', '---'):
            for name in re.findall(r'`([^`]+)`', cells[2]):
                yield cells[1], name.split('::')[-1]


def main():
    pairs, exported = asked()
    rows = set(listed())
    faults = ['%s: not in docs/PROOFS.md: %s' % pair for pair in sorted(pairs - rows)]
    faults += ['%s: asks no more than a sound book: %s' % pair for pair in sorted(rows - pairs)]
    faults += ['a C call that asks something: %s' % name for name in exported]
    for fault in faults:
        print(fault)
    print('%d passed, %d failed' % (len(pairs & rows), len(faults)))
    return 1 if faults or not pairs else 0


sys.exit(main())
