"""The output of the program `test_surveys` (crates/test_surveys/stdout, which `rt ci` holds to what it writes) against the exact solver and the documents' tables.

Each line has three parts: what is compared with, the program's numbers, the differences. Checked: the first parts are those of the exact solver, or of document 002; the third parts are
the second less the first; corrections are within one unit of the exact ones, coordinates and residuals as far as that goes; what document 002 prints is met within 0.05 mm in coordinates
(half a unit) and 0.1 mm in residuals (two coordinates). What document 003 prints of its constrained adjustment is in constrained_003.py."""
import os
import sys

ROOT = os.path.dirname(os.path.dirname(os.path.dirname(os.path.abspath(__file__))))
sys.path.insert(0, os.path.join(ROOT, 'tests', 'reference'))
import constrained_003
import documents

FACTOR = 50
SURVEYS = 5         # in the program


def expected_rows(stations, records):
    """(word, numbers, largest difference allowed at each) of a survey's lines."""
    x, words = documents.exact_sheet(stations, records)
    yield 'corrections', x, [1] * len(x)
    at = 2
    for _ in stations:
        yield 'station', words[at:at + 7], [0, 1, 1, 1] + [max(1, v // 1_000_000) for v in words[at + 4:at + 7]]
        at += 7
    for r in records.values():
        k = len(r.components)
        yield 'record', words[at:at + 1 + 2 * k], [0] + [2] * k + [0] * k
        at += 1 + 2 * k
    yield 'global', words[at:], [words[at] // 1000, 0, 0]


def rows():
    yield from expected_rows(*documents.levels_003())
    yield from expected_rows(*documents.baselines_003())
    yield from expected_rows(*documents.baselines_002(FACTOR))
    for k, numbers in enumerate(documents.printed_002()):
        yield 'printed', numbers, [5 if k < 4 else 10] * 3
    yield from expected_rows(*documents.baselines_002(FACTOR, held='A'))
    yield from expected_rows(*documents.positions_003())


def parts(line):
    first, ours, differences = [part.split() for part in line.split('|')]
    return first, [int(v) for v in ours], [int(v) for v in differences]


def wrong(line, word, numbers, allowed):
    first, ours, differences = parts(line)
    if first != [word] + [str(v) for v in numbers]:
        return 'is compared with %s, not with %s' % (' '.join(first), ' '.join(map(str, [word] + numbers)))
    if differences != [a - b for a, b in zip(ours, numbers)] or len(ours) != len(numbers):
        return 'has wrong differences'
    if any(abs(v) > limit for v, limit in zip(differences, allowed)):
        return 'differs by more than %s' % allowed
    return None


def main():
    with open(os.path.join(ROOT, 'crates', 'test_surveys', 'stdout')) as source:
        lines = [(k, line) for k, line in enumerate(source, 1)]
    accepted = sum(line.startswith('accepted') for _, line in lines)
    lines = [(k, line) for k, line in lines if line.count('|') == 2 and not line.startswith(('accepted', 'printed in'))]
    want = list(rows())
    passed = failed = 0
    if accepted != SURVEYS or len(lines) != len(want):
        print('%d surveys accepted, %d lines, not %d and %d' % (accepted, len(lines), SURVEYS, len(want)))
        failed = 1
    for (k, line), row in zip(lines, want):
        what = wrong(line, *row)
        if what:
            print('line %d %s' % (k, what))
        failed += bool(what)
        passed += not what
    last = [parts(line)[1] for _, line in lines if line.startswith('station')][-len(documents.UNCERTAINTIES_003):]
    for test in constrained_003.TESTS:
        what = test(last)
        if what:
            print(what)
        failed += bool(what)
        passed += not what
    print('%d passed, %d failed' % (passed, failed))
    sys.exit(failed != 0)


main()
