#!/usr/bin/env python3
"""Writes the lists of docs/DESIGN-PASS.md anew: what went, came and changed between two checkouts.

    git worktree add ../before 50264663
    python3 tools/design_lists.py ../before

The text of the page before its lists stays as it is, and so does the last column of the two lists of what went, by its name.
A name that has no line in that column yet is told, with exit status 1; the page is written all the same.
"""
import pathlib
import re
import sys

LISTS = '# Functions that went, and what states their promise now'
# These names alone differ in definitions that are otherwise the same.
RENAMED = [(r'\bEdited\b', 'Outcome'), (r'\bList Row\b', 'List (Option Call)'), (r'\bRow\b', 'Option Call'), (r'\bNames\b', 'Some'),
           (r'\bNameless\b', 'None'), (r'\bAccepted\b', 'Ok tt'), (r'\bRefused\b', 'Err')]
# Clauses of a function of two cases, whose names the reading below takes for definitions.
NO_DEFINITIONS = {('book', 'answer'), ('text', 'whole')}


def spaced(text):
    return re.sub(r'\s+', ' ', text).strip()


def code(text):
    return '`' + text.replace('`', "'").replace('|', '\\|') + '`' if text else ''


def sources(root, pattern):
    for path in sorted(root.glob(f'crates/*/{pattern}')):
        crate = path.relative_to(root).parts[1]
        if not crate.startswith('test_'):
            yield crate, path


def header_end(text, start):
    """Where the body of the function begins: the first brace that opens outside a clause."""
    depth, clause = 0, False
    for at in range(start, len(text)):
        if depth == 0 and re.match(r'\b(requires|ensures)\b', text[at:at + 10]):
            clause = True
        if text[at] == '{':
            if depth == 0 and not clause:
                return at
            depth += 1
        elif text[at] == '}':
            depth -= 1
            clause = clause and depth > 0
    return start


def functions(root):
    """(crate, owner, name) to (visibility, signature with its clauses)."""
    found = {}
    for crate, path in sources(root, 'src/**/*.rt'):
        text = re.sub(r'//[^\n]*', '', path.read_text())
        for m in re.finditer(r'^( *)(pub(?:\([a-z]+\))? )?(?:const )?(extern "C" )?fn (\w+)', text, re.M):
            owners = re.findall(r'^impl(?:<[^>]*>)? ([^{]+) \{', text[:m.start()], re.M)
            owner = owners[-1] if m.group(1) and owners else ''
            head = spaced('fn ' + m.group(4) + text[m.end():header_end(text, m.end())])
            found[(crate, owner, m.group(4))] = ((m.group(2) or '').strip(), head)
    return found


def types(root):
    found = {}
    for crate, path in sources(root, 'src/**/*.rt'):
        text = re.sub(r'//[^\n]*', '', path.read_text())
        for m in re.finditer(r'^(?:#\[derive\([^)]*\)\]\n)?(?:pub(?:\([a-z]+\))? )?(?:struct|enum) (\w+)[^{;]*\{(?:\}|.*?^\})', text, re.M | re.S):
            found[(crate, m.group(1))] = spaced(m.group(0))
    return found


def definitions(root):
    """(crate, name) to the declaration and its clauses, over specs/."""
    found = {}
    for crate, path in sources(root, 'specs/**/*.antt'):
        name, lines = None, []

        def keep():
            if name:
                found.setdefault((crate, name), []).append(spaced('\n'.join(lines)))

        for line in re.sub(r'--[^\n]*', '', path.read_text()).split('\n'):
            d = re.match(r'^ {0,2}(?:(?:abbrev|unfoldable) )?(?:pub )?(?:(?:record|data) )?([^\s(){}:]+)(?: \(.*)?(?: \{.*)? ?: ', line)
            if d and not line.strip().startswith('→'):
                if d.group(1) != name:
                    keep()
                    name, lines = d.group(1), []
            elif re.match(r'^(use|module|ruleset|mutual)\b', line):
                keep()
                name, lines = None, []
            if name:
                lines.append(line)
        keep()
    return {key: ' '.join(parts) for key, parts in found.items() if key not in NO_DEFINITIONS}


def edits(root):
    return {path.relative_to(root).parts[1] + '/' + path.stem: path.read_text() for path in sorted(root.glob('crates/*/must-fail/*.edit'))}


def renamed(text):
    for old, new in RENAMED:
        text = re.sub(old, new, text)
    return spaced(re.sub(r'[()]', '', text))


def stated_now(page):
    """The last column of the lists of what went, by the first two of each line."""
    found = {}
    for line in page.split('\n'):
        cells = re.split(r'(?<!\\) ?\| ?', line)[1:-1]
        if len(cells) == 4:
            name = re.search(r'fn (\w+)', cells[1])
            if name:
                found[(cells[0], name.group(1))] = cells[3]
        elif len(cells) == 3 and re.match(r'^\w+ `[^`]+`$', cells[0]):
            crate, name = cells[0].split(' ', 1)
            found[(crate, name.strip('`'))] = cells[2]
    return found


def split_clauses(head):
    at = re.search(r' (requires|ensures) ', head)
    return (head[:at.start()], head[at.start() + 1:]) if at else (head, '')


def visible(kept):
    return kept + ' ' if kept else ''


def lists(before, now, told, missing):
    out = [LISTS, '', '| crate | function | its clauses | what states it now |', '|---|---|---|---|']
    old, new = functions(before), functions(now)

    def states(crate, name):
        if not told.get((crate, name)):
            missing.append(f'{crate} {name}')
        return told.get((crate, name), '')

    for key in old:
        if key not in new:
            head, clauses = split_clauses(old[key][1])
            out.append(f'| {key[0]} | {visible(old[key][0])}{code(head)} | {code(clauses)} | {states(key[0], key[2])} |')
    out += ['', 'Functions of test programs are left out: a program prints what it printed, and nothing outside it calls them.', '',
            '# Functions that came', '', '| crate | function with its clauses |', '|---|---|']
    out += [f"| {k[0]} | {visible(new[k][0])}{code(k[1]) + ': ' if k[1] else ''}{code(new[k][1])} |" for k in new if k not in old]
    out += ['', '# Functions whose signature or clauses changed', '', '| crate | before | now |', '|---|---|---|']
    out += [f"| {k[0]}{' (pub)' if old[k][0] == 'pub' else ''} | {code(old[k][1])} | {code(new[k][1])} |" for k in old if k in new and old[k][1] != new[k][1]]
    old, new = types(before), types(now)
    out += ['', '# Types', '', '| crate | before | now |', '|---|---|---|']
    out += [f"| {k[0]} | {code(old.get(k, ''))} | {code(new.get(k, ''))} |" for k in sorted(set(old) | set(new)) if old.get(k) != new.get(k)]
    old, new = definitions(before), definitions(now)
    changed = [k for k in old if k in new and old[k] != new[k]]
    same = [k for k in changed if renamed(old[k]) == renamed(new[k])]
    out += ['', '# Definitions, laws and theorems of specs/', '',
            'These differ by names alone: `Outcome`, a record of specs/ with the same two fields, for the struct `Edited`; `Option Call`, `Some`, `None` for `Row`, `Names`, `Nameless`; `Ok tt`, `Err` for `Accepted`, `Refused`: '
            + ', '.join(f'{c} `{n}`' for c, n in same) + '.', '', '| went | its statement | what states it now |', '|---|---|---|']
    out += [f'| {c} `{n}` | {code(old[c, n][:600])} | {states(c, n)} |' for c, n in old if (c, n) not in new]
    out += ['', 'New: ' + ', '.join(f'{c} `{n}`' for c, n in new if (c, n) not in old) + '.', '', '| crate | before | now |', '|---|---|---|']
    out += [f'| {k[0]} | {code(old[k])} | {code(new[k])} |' for k in changed if k not in same]
    old, new = edits(before), edits(now)

    def shown(text):
        return '<br>'.join(code(spaced(line)) for line in text.strip().split('\n') if line and not line.startswith('#'))

    out += ['', '# Must-fail edits', '', f'{len(old)} before, {len(new)} now. Those that changed, with the wrong meaning that they had, and those that came:', '',
            '| edit | before | now |', '|---|---|---|']
    out += [f"| {k} | {shown(old.get(k, ''))} | {shown(new.get(k, ''))} |" for k in sorted(set(old) | set(new)) if old.get(k) != new.get(k)]
    return '\n'.join(out) + '\n'


def main():
    if len(sys.argv) != 2 or not pathlib.Path(sys.argv[1], 'crates').is_dir():
        sys.exit('usage: design_lists.py BEFORE, a checkout of the commit in the first line of docs/DESIGN-PASS.md; run at the top of this one')
    now = pathlib.Path('.')
    path = now / 'docs/DESIGN-PASS.md'
    if not path.is_file() or LISTS not in path.read_text():
        sys.exit(f'{path}: not there, or without the line {LISTS!r}')
    page = path.read_text()
    missing = []
    text = lists(pathlib.Path(sys.argv[1]), now, stated_now(page), missing)
    path.write_text(page[:page.index(LISTS)] + text)
    for name in missing:
        print('what states it now?', name)
    return 1 if missing else 0


if __name__ == '__main__':
    sys.exit(main())
