"""All tests of the program.

    all.py [COUNT]        COUNT random inputs, 4720 where none is given; what they cover is judged from 4720 on

Prints what failed, with the seed of a random input (inputs.py SEED writes it), what was seen, and 'N passed, M failed' last."""
import glob
import os
import random
import signal
import sys

sys.path.insert(0, os.path.join(os.path.dirname(os.path.abspath(__file__)), '..', 'reference'))
import building
import documents
import from_known
import inputs
import kinds
import limits
import pages
import program
import streams
import survey
import wrapper
from coverage import Seen

INPUTS = 4720       # random inputs of a run: forty times the wheel of kinds
NO_FREEDOM = 'D = 0 beside a check only'
BESIDE_POSITION, POSITION_GONE = 'REFUSED 11 beside a position', 'REFUSED 11 where a position is gone'
MARKS = ((0, 0, 0), (1, -2, 3), (70_000, 4_000_000, -900), (inputs.END, inputs.END, inputs.END), (-inputs.END, inputs.END, -inputs.END))      # coordinates of the known station

# In how many inputs each test must see a kind of input, a message, a verdict or an accepted edit: somewhat less often than it does.
EXAMPLES = {'input': 16, 'SHEET': 12, 'FAIL': 5, 'PASS': 12, 'GLOBAL LOW': 3, 'GLOBAL NONE': 1, 'GLOBAL PASS': 8, 'LINE k UNREADABLE': 1, 'NO PROPOSAL': 1,
            'REFUSED 1': 1, 'REFUSED 11': 1, 'REFUSED 16': 1, **{'LINE k REFUSED %d' % no: 1 for no in range(2, 9)}}
NAMED = {'input': 132, 'SHEET': 90, 'LOOSE': 30, 'PASS': 62, 'FAIL': 20, 'GLOBAL NONE': 33, 'LINE k UNREADABLE': 35, 'LINE k REFUSED 7': 4, 'LINE k REFUSED 8': 4, 'NO PROPOSAL': 10,
         'REFUSED 1': 14, 'REFUSED 10': 6, 'REFUSED 11': 7, 'REFUSED 12': 1, 'REFUSED 16': 1,
         'R enter at an empty place': 5, 'R enter over another record': 8, 'R enter over an equal record': 3, 'enter over another record': 14, 'enter over an equal record': 4,
         'undo of enter at an empty place': 7, 'undo of enter over another record': 12, 'undo of enter over an equal record': 4, 'undo of strike': 3,
         'LINE k REFUSED 2': 3, 'LINE k REFUSED 3': 4, 'LINE k REFUSED 4': 11, 'LINE k REFUSED 5': 2, 'LINE k REFUSED 6': 5,
         **{'%sB and %d numbers' % (r, count): 1 for r in ('', 'R ') for count in range(11, 17)}, **{'%sP and %d numbers' % (r, count): 1 for r in ('', 'R ') for count in range(10, 15)},
         **{'antenna heights: ' + what: 1 for what in kinds.HEIGHT_OUTCOMES if what != '6 by both differences'}, **{'position: ' + what: 1 for what in kinds.POSITION_OUTCOMES},
         **dict.fromkeys(kinds.EXCHANGES, 1), **dict.fromkeys(kinds.TIES, 10), BESIDE_POSITION: 3, POSITION_GONE: 2, NO_FREEDOM: 5,
         'position known': 6, 'position free': 25, 'position height': 4}
LIMITS = {'input': 598, 'GLOBAL LOW': 147, 'GLOBAL PASS': 292, 'GLOBAL HIGH': 145, 'GLOBAL NONE': 14}
PIECES = {'input': 236, 'SHEET': 60, 'LINE k UNREADABLE': 80, 'LINE k REFUSED 7': 30, 'NO PROPOSAL': 6, 'REFUSED 1': 35, 'REFUSED 10': 30, 'REFUSED 11': 25, 'REFUSED 14': 8,
          **{kind.__name__: 2 * share for kind, share in inputs.KINDS}}
WHOLE = {'input': 900, 'SHEET': 300, 'NO PROPOSAL': 40, 'REFUSED 1': 150, 'REFUSED 11': 140, 'LINE k UNREADABLE': 400, 'LINE k REFUSED 7': 150}
WITH_R = {'input': 472, 'R put before a line': 440, 'R B and 12 numbers': 190, 'R B and 13 numbers': 4, 'R B and 14 numbers': 270,
          'R P and 10 numbers': 3, 'R P and 11 numbers': 290, 'R P and 12 numbers': 3,
          'SHEET': 140, 'LINE k UNREADABLE': 190, 'LINE k REFUSED 7': 70, 'NO PROPOSAL': 15, 'REFUSED 11': 60, 'REFUSED 14': 20,
          'R enter at an empty place': 330, 'R enter over another record': 115, 'R enter over an equal record': 45, 'undo of enter at an empty place': 115,
          'undo of enter over another record': 70, 'undo of enter over an equal record': 32, **{'LINE k REFUSED %d' % no: 15 for no in range(2, 7)},
          **{'position: ' + what: 2 for what in kinds.POSITION_OUTCOMES}, 'position: accepted': 260, **dict.fromkeys(kinds.EXCHANGES, 20),
          **{kind.__name__: 4 * share for kind, share in inputs.KINDS}}
FROM_MARK_TO_MARK = {'input': 370, 'SHEET': 140, 'baseline with antenna heights': 120, 'PASS': 105, 'FAIL': 85, 'LOOSE': 60, 'GLOBAL PASS': 60, 'GLOBAL HIGH': 55, 'GLOBAL LOW': 5,
                     'LINE k UNREADABLE': 170, 'NO PROPOSAL': 3, 'REFUSED 11': 55, 'REFUSED 14': 20,
                     'B and 12 numbers': 180, 'B and 14 numbers': 280, 'R B and 12 numbers': 90, 'R B and 14 numbers': 160,
                     'undo of enter over another record': 70, **{'LINE k REFUSED %d' % no: 18 for no in range(2, 7)}, **{'antenna heights: ' + what: 1 for what in kinds.HEIGHT_OUTCOMES},
                     'antenna heights: accepted': 200, 'antenna heights: accepted, where the observed difference would give 6': 220,
                     'antenna heights: 6 by the reduced difference alone': 18,
                     'network': 135, 'editing': 60, 'broken_bytes': 55, 'station_list': 20, 'proposed': 30, 'height_limits': 30}
FROM_KNOWN_STATION = {'input': 400, 'SHEET': 160, 'PASS': 125, 'FAIL': 95, 'LOOSE': 75, 'GLOBAL PASS': 70, 'GLOBAL HIGH': 60, 'GLOBAL LOW': 7, 'GLOBAL NONE': 14,
                      'LINE k UNREADABLE': 175, 'NO PROPOSAL': 5, 'REFUSED 1': 35, 'REFUSED 10': 65, 'REFUSED 11': 62, 'REFUSED 14': 18, 'REFUSED 16': 10,
                      **{'LINE k REFUSED %d' % no: 15 for no in range(2, 9)}, 'undo of strike': 85,
                      'position free': 85, 'position height': 55, 'position known': 50, **dict.fromkeys(kinds.TIES, 9), BESIDE_POSITION: 30, POSITION_GONE: 14, NO_FREEDOM: 5,
                      **{'position: ' + what: 2 for what in kinds.POSITION_OUTCOMES}, 'position: accepted': 330, **dict.fromkeys(kinds.EXCHANGES, 25),
                      'P and 11 numbers': 300, 'R P and 11 numbers': 180, 'network': 115, 'editing': 55, 'history': 20, 'broken_bytes': 45, 'station_list': 28, 'long_lines': 7,
                      'proposed': 35, 'height_limits': 18, 'position_limits': 20, 'marks': 40}
FAILING = {'input': 300, 'a sheet withheld': 65, 'within a line': 80, 'between lines': 145, 'messages': 120, 'no message': 100, 'a refused opening': 33}
RANDOM = {'input': INPUTS, 'SHEET': 1450, 'PASS': 1100, 'FAIL': 900, 'LOOSE': 680, 'GLOBAL PASS': 650, 'GLOBAL HIGH': 550, 'GLOBAL NONE': 160, 'GLOBAL LOW': 70,
          'LINE k UNREADABLE': 1900, 'NO PROPOSAL': 200, 'REFUSED 1': 700, 'REFUSED 10': 700, 'REFUSED 11': 700, 'REFUSED 12': 60, 'REFUSED 13': 9, 'REFUSED 14': 230,
          'REFUSED 15': 12, 'REFUSED 16': 110, 'LINE k REFUSED 2': 155, 'LINE k REFUSED 3': 240, 'LINE k REFUSED 4': 440, 'LINE k REFUSED 5': 850, 'LINE k REFUSED 6': 450,
          'LINE k REFUSED 7': 750, 'LINE k REFUSED 8': 500, 'full_size': INPUTS // inputs.FULL_EVERY, 'as the reference': 4400,
          'enter at an empty place': 2900, 'enter over another record': 1050, 'enter over an equal record': 450, 'R enter at an empty place': 1900, 'R enter over another record': 930,
          'R enter over an equal record': 380, 'strike': 1150, 'undo of enter at an empty place': 1200, 'undo of enter over another record': 800,
          'undo of enter over an equal record': 350, 'undo of strike': 750, **dict.fromkeys(kinds.EXCHANGES, 240),
          'baseline known-known': 180, 'baseline known-free': 600, 'baseline known-height': 490, 'baseline free-free': 350, 'baseline free-height': 390, 'baseline height-height': 140,
          'height difference known-known': 185, 'height difference known-free': 350, 'height difference known-height': 490, 'height difference free-free': 175,
          'height difference free-height': 250, 'height difference height-height': 120, NO_FREEDOM: 48, 'position known': 400, 'position free': 700, 'position height': 440,
          'baseline with antenna heights': 1000, 'baseline': 850, 'height difference': 1000, 'position': 1050,
          'B and 11 numbers': 15, 'B and 12 numbers': 1600, 'B and 13 numbers': 55, 'B and 14 numbers': 2250, 'B and 15 numbers': 38, 'B and 16 numbers': 17,
          'R B and 12 numbers': 760, 'R B and 13 numbers': 28, 'R B and 14 numbers': 1300, 'R B and 15 numbers': 10, 'R B and 16 numbers': 10,
          'P and 10 numbers': 34, 'P and 11 numbers': 2400, 'P and 12 numbers': 24, 'P and 13 numbers': 16,
          'R P and 10 numbers': 14, 'R P and 11 numbers': 1400, 'R P and 12 numbers': 9, 'R P and 13 numbers': 5,
          **{'antenna heights: ' + what: 25 for what in kinds.HEIGHT_OUTCOMES}, 'antenna heights: accepted': 1700,
          'antenna heights: accepted, where the observed difference would give 6': 1800, 'antenna heights: 4 by a height': 95,
          'antenna heights: 6 by both differences': 150, 'antenna heights: 6 by the reduced difference alone': 160,
          **{'position: ' + what: 18 for what in kinds.POSITION_OUTCOMES}, 'position: accepted': 2600,
          'position: refused 3': 130, 'position: refused 4': 230, 'position: refused 5': 420, 'position: refused 6': 140,
          **dict.fromkeys(kinds.TIES, 75), 'tied in E by positions alone': 350, 'tied in N by positions alone': 350, 'tied in U by positions alone': 420,
          'a position at every station': 180, BESIDE_POSITION: 300, POSITION_GONE: 170,
          **{kind.__name__: INPUTS // len(inputs.WHEEL) * share - INPUTS // inputs.FULL_EVERY for kind, share in inputs.KINDS}}


class Tally:
    def __init__(self):
        self.passed = self.failed = 0

    def add(self, name, wrong):
        if wrong:
            print('%s: %s' % (name, wrong), flush=True)
            self.failed += 1
        else:
            self.passed += 1


def examples(tally):
    """Each input of examples/ against the output beside it, and that against the reference."""
    seen = Seen()
    for path in sorted(glob.glob(os.path.join(program.ROOT, 'examples', '*.txt'))):
        name = os.path.relpath(path, program.ROOT)
        with open(path, 'rb') as source, open(path[:-4] + '.sheet', 'rb') as beside:
            data, want = source.read(), beside.read()
        got = program.output(data)
        seen.add(got, 'input')
        tally.add(name, None if got == want else program.first_difference(got, want))
        tally.add(name + ' by the reference', program.Expected(data).difference(want))
    tally.add('coverage of the examples', seen.lacking(EXAMPLES))
    for name, network in documents.SURVEYS.items():
        with open(os.path.join(program.ROOT, 'examples', name + '.txt'), encoding='ascii') as source:
            tally.add('examples/%s.txt by the document' % name, None if source.read() == documents.text(*network()) else 'is not what documents.py writes')


def named(tally):
    """Inputs that a random one seldom hits, against the reference; and both sides of the limits of the global test."""
    seen = Seen()
    for name, data in inputs.NAMED.items():
        got, expected = program.output(data), program.Expected(data)
        seen.add(got, 'input', *book_kinds(expected), *expected.run.found)
        tally.add(name, expected.difference(got))
    tally.add('coverage of the named inputs', seen.lacking(NAMED))
    seen = Seen()
    for data, last in limits.cases():
        got = program.output(data).split(b'\n')[-2]
        seen.add(got, 'input')
        tally.add('limits of the global test', None if got == last else 'the last line is %r, not %r' % (got, last))
    tally.add('coverage of the limits', seen.lacking(LIMITS))


def interrupted(tally):
    """Random inputs that come in pieces, and random inputs that fail midway."""
    seen = Seen()
    for seed in range(2 * len(inputs.WHEEL)):
        kind, data = inputs.made(seed)
        wrong, got = streams.pieces(seed, data)
        seen.add(got, 'input', kind)
        tally.add('seed %d in pieces' % seed, wrong)
    tally.add('coverage of inputs in pieces', seen.lacking(PIECES))
    seen = Seen()
    for seed in range(300):
        wrong, kinds = streams.cut(seed)
        seen.add(b'', 'input', *kinds)
        tally.add('seed %d, failing midway' % seed, wrong)
    tally.add('coverage of failing inputs', seen.lacking(FAILING))


def with_r(tally):
    """Random inputs with R before every H, B and P line: the same bytes as with R before none."""
    seen = Seen()
    for seed in range(4 * len(inputs.WHEEL)):
        kind, data = inputs.made(seed)
        without = inputs.without_r(data)
        data = inputs.with_r(without)
        reference = program.Noted()
        reference.run(data)
        got, want = program.output(data), program.output(without)
        seen.add(got, 'input', kind, *(['R put before a line'] if data != without else []), *reference.found)
        tally.add('seed %d with R before every H, B and P' % seed, None if got == want else program.first_difference(got, want))
    tally.add('coverage of inputs with R', seen.lacking(WITH_R))


def from_mark_to_mark(tally):
    """Random inputs with antenna heights: the same bytes as with the reduced U differences and no heights."""
    seen = Seen()
    for seed in range(5 * len(inputs.WHEEL)):
        kind, data = inputs.made(seed)
        reduced = inputs.at_marks(data)
        if reduced != data:
            expected = program.Expected(data)
            got, want = program.output(data), program.output(reduced)
            seen.add(got, 'input', kind, *book_kinds(expected), *expected.run.found)
            tally.add('seed %d from mark to mark' % seed, None if got == want else program.first_difference(got, want))
    tally.add('coverage of inputs from mark to mark', seen.lacking(FROM_MARK_TO_MARK))


def from_known_station(tally):
    """Random inputs with positions: the same bytes as with baselines from one more known station, but for the line of that station."""
    seen = Seen()
    for seed in range(5 * len(inputs.WHEEL)):
        kind, data = inputs.made(seed)
        other = from_known.Baselines(data, random.Random(seed).choice(MARKS))
        if other.exchanged and other.text is not None:
            expected = program.Expected(data)
            got, want = program.output(data), other.printed(program.output(other.text))
            seen.add(got, 'input', kind, *book_kinds(expected), *expected.run.found)
            tally.add('seed %d from a known station' % seed, None if got == want else program.first_difference(got, want))
    tally.add('coverage of inputs from a known station', seen.lacking(FROM_KNOWN_STATION))


def whole(tally):
    """Random inputs taken as one whole text, by the function whose contract is the definition of what a text prints: the same bytes as chunk by chunk."""
    seen = Seen()
    for seed in range(1000):
        data = inputs.made(seed)[1]
        if len(data) <= program.LONGEST:
            got, want = program.output(data, program.WHOLE), program.output(data)
            seen.add(got, 'input')
            tally.add('seed %d as a whole text' % seed, None if got == want else program.first_difference(got, want))
    tally.add('coverage of whole texts', seen.lacking(WHOLE))
    longer = program.output(b'U' * (program.LONGEST + 1), program.WHOLE)
    tally.add('a text that is too long', None if b'longer than' in longer and b'UNREADABLE' not in longer else 'printed %r' % longer[:200])


def book_kinds(expected):
    """Of a sheet, the kinds of its records, also by whether they have antenna heights, whether D is 0 with one among them that is a check only, and what positions tie. Of a check
    refused with 11, whether there is a position, and whether there was one that made the chains."""
    ledger = expected.run.ledger
    if b'\nREFUSED 11 ' in b'\n' + expected.text:
        beside = any(isinstance(r, survey.Position) for r in ledger.records().values())
        return {what for what, holds in ((BESIDE_POSITION, beside), (POSITION_GONE, expected.run.lacks_position())) if holds}
    if b'\nGLOBAL ' not in expected.text:
        return set()
    found = {kind for r in ledger.records().values() for kind in (kinds.of(ledger.net, r), kinds.of_place(r))} | kinds.of_ties(ledger.net, ledger.records())
    return found | ({NO_FREEDOM} if found & kinds.CHECK_ONLY and expected.text.split(b' ')[-2] == b'0' else set())


def differential(tally, count):
    """Random inputs from the seeds 0 .. COUNT - 1: the program against the reference."""
    seen = Seen()
    for seed in range(count):
        kind, data = inputs.made(seed)
        expected = program.Expected(data)
        got = program.output(data)
        tally.add('seed %d (%s)' % (seed, kind), expected.difference(got))
        seen.add(got, 'input', kind, *(['as the reference'] if got == expected.text else []), *book_kinds(expected), *expected.run.found)
    if count >= INPUTS:
        tally.add('coverage of the random inputs', seen.lacking(RANDOM))
    print('%d random inputs, of them %s' % (count, ', '.join('%d %s' % (number, kind) for kind, number in sorted(seen.counts.items()) if kind != 'input')))
    print('Those that are not printed byte for byte as the reference has it have a proposal of the engine within its promises')


def main():
    # a shell has what it starts in the background ignore a Ctrl-C, as the gate starts these tests; what they start is to hear it
    signal.signal(signal.SIGINT, signal.default_int_handler)
    count = int(sys.argv[1]) if len(sys.argv) > 1 else INPUTS
    tally = Tally()
    for test in wrapper.TESTS + building.TESTS + pages.TESTS:
        tally.add('bin/adjust, ' + test.__name__, test())
    examples(tally)
    named(tally)
    for test in streams.TESTS:
        tally.add(test.__name__, test())
    for command in (program.PROGRAM, program.WRAPPER):
        for test in streams.BOTH:
            tally.add('%s, %s' % (os.path.relpath(command, program.ROOT), test.__name__), test(command))
    interrupted(tally)
    with_r(tally)
    from_mark_to_mark(tally)
    from_known_station(tally)
    whole(tally)
    differential(tally, count)
    print('%d passed, %d failed' % (tally.passed, tally.failed))
    sys.exit(tally.failed != 0)


main()
