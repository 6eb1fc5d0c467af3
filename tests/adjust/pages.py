"""docs/SHEET.md is true: each command on it prints what stands below it, and each standard deviation is the root of its variance. Each test gives what is wrong, or None."""
import os
import re
import subprocess

from program import first_difference, LIMIT, ROOT

PAGE = os.path.join(ROOT, 'docs', 'SHEET.md')
DEVIATION = re.compile(r'√\((\d+) / 2\^30\) · 10 mm = (\d+\.\d{3}) mm')
COMMANDS, DEVIATIONS = 11, 3       # that the page must have at least


def page():
    with open(PAGE, encoding='utf-8') as file:
        return file.read()


def blocks():
    """(command, what the page has below it)"""
    found = []
    for line in page().splitlines():
        if line.startswith('    $ '):
            found.append((line[6:], []))
        elif line.startswith('    ') and found:
            found[-1][1].append(line[4:] + '\n')
    return [(command, ''.join(below).encode()) for command, below in found]


def commands():
    for command, want in blocks():
        got = subprocess.run(['sh', '-c', command], stdout=subprocess.PIPE, stderr=subprocess.DEVNULL, cwd=ROOT, timeout=LIMIT).stdout
        if got != want:
            return '%s: %s' % (command, first_difference(got, want))
    return None if len(blocks()) >= COMMANDS else 'only %d commands' % len(blocks())


def deviations():
    found = DEVIATION.findall(page())
    for variance, millimetres in found:
        if '%.3f' % ((int(variance) / 2 ** 30) ** 0.5 * 10) != millimetres:
            return 'the root of %s is not %s mm' % (variance, millimetres)
    sheets = ''.join(text.decode() for _, text in blocks())
    with open(os.path.join(ROOT, 'examples', 'two_marks.sheet'), encoding='ascii') as file:
        sheets += file.read()
    strange = [variance for variance, _ in found if variance not in sheets.split()]
    return 'on no sheet: %s' % strange if strange else None if len(found) >= DEVIATIONS else 'only %d standard deviations' % len(found)


TESTS = [commands, deviations]
