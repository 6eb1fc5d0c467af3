#!/usr/bin/env python3
"""Lists what the code says more than once, for docs/DESIGN-PASS.md.

    tools/shapes.py twins [CRATES]     functions whose bodies are the same but for names, numbers and texts
    tools/shapes.py facts [CRATES]     facts that stand in the `requires` of three functions or more

CRATES is the folder of the crates, crates/ where none is given. Test programs (test_..) are left out of both.
"""
import pathlib
import re
import sys

FEWEST_WORDS = 14     # a body of fewer words says too little to be a twin
FEWEST_FUNCTIONS = 3  # that ask the same fact


def functions(text):
    """Each function as (name, clauses, body)."""
    text = re.sub(r'//[^\n]*', '', text)
    for m in re.finditer(r'^( *)(?:pub(?:\([a-z]+\))? )?(?:extern "C" )?fn (\w+)', text, re.M):
        end = text.find('\n' + m.group(1) + '}\n', m.end())
        body = text.find('\n' + m.group(1) + '{\n', m.end())
        if body < 0 or end < 0 or body > end:
            body = text.find('{\n', m.end())
        if 0 <= body < end:
            yield m.group(2), text[m.end():body], text[body:end]


def shape(body):
    body = re.sub(r'b?"[^"]*"', 'T', body)
    body = re.sub(r"b?'[^']*'", 'T', body)
    keep = {'for', 'in', 'if', 'else', 'match', 'return', 'let', 'mut', 'while', 'loop', 'true', 'false', 'as'}
    words = re.findall(r'[A-Za-z_]\w*|[0-9][\w.]*|[^\s\w]', body)
    return ' '.join(w if w in keep or not re.match(r'\w', w) else 'N' if w[0].isdigit() else 'n' for w in words), len(words)


def main():
    if len(sys.argv) not in (2, 3) or sys.argv[1] not in ('twins', 'facts'):
        print(__doc__.strip())
        return 2
    root = pathlib.Path(sys.argv[2] if len(sys.argv) == 3 else 'crates')
    if not root.is_dir():
        print(f'{root}: no such folder')
        return 2
    groups = {}
    for path in sorted(root.glob('*/src/**/*.rt')):
        crate = path.relative_to(root).parts[0]
        if crate.startswith('test_'):
            continue
        for name, clauses, body in functions(path.read_text()):
            where = f'{crate}::{name}'
            if sys.argv[1] == 'twins':
                key, words = shape(body)
                keys = [key] if words >= FEWEST_WORDS else []
            else:
                asked = re.findall(r'requires(?: \w+)? \{([^}]*)\}', clauses)
                keys = {part.strip(' ()') for fact in asked for part in fact.split('×')}
            for key in keys:
                groups.setdefault(key, []).append(where)
    least = 2 if sys.argv[1] == 'twins' else FEWEST_FUNCTIONS
    found = sorted((k for k in groups if len(groups[k]) >= least), key=lambda k: (-len(groups[k]), groups[k]))
    for key in found:
        print(f'{len(groups[key])}: ' + (f'{key}: ' if sys.argv[1] == 'facts' else '') + ', '.join(groups[key]))
    print(f'{len(found)} groups, {sum(len(groups[k]) for k in found)} functions')
    return 0


sys.exit(main())
