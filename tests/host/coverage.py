"""What the tests of the C calls must have met at least so many times, in one place: a test that no longer reaches what it is for fails. Each number is about half of what the
fixed seeds give. What a table does not have must not come at all: refusal 9, for one, and 7 but of a strike."""
from collections import Counter
import itertools

SIZES = {'1 to 9': (1, 9), '10 to 24': (10, 24), '25 to 47': (25, 47), '48': (48, 48)}      # classes of numbers of unknowns


def lengths(least):
    return dict.fromkeys(('as asked', 'empty', 'a word short', 'a byte short', 'a byte long', 'a word long', 'far longer'), least)


def ties(least):
    return dict.fromkeys(('tied in %s by positions alone' % c for c in 'ENU'), least)


def distance_refusals(least):
    """3, 17 and one of the check's own, each alone and with the others."""
    apply = itertools.product(('', '3'), ('', '17'), ('', *map(str, range(10, 17))))
    return dict.fromkeys((' '.join(filter(None, numbers)) for numbers in apply if any(numbers)), least)


# tests/host/calls.py. Each call by its refusals, 0 where it is done, and an enter also by what its place holds; what accepted edits found and an undo restored; enters undone at once,
# by whether the history had 64 edits and by what came back; what the antenna heights of baselines lead to; then the lengths of lent slices on bytes that hold a book, damage, what was
# written, and what the accepted sheets are of.
CALLS = {
    'open': {0: 150, 1: 90, 25: 160},
    'enter_baseline': {0: 4400, 2: 55, 3: 220, 4: 400, 5: 240, 6: 160, 25: 1200},
    'enter_baseline, at an empty place': {0: 3100, 3: 140, 4: 270, 5: 160, 6: 95},
    'enter_baseline, at a filled place': {0: 1200, 3: 80, 4: 130, 5: 80, 6: 60},
    'enter_height': {0: 3900, 2: 45, 3: 170, 4: 45, 6: 35, 25: 1200},
    'enter_height, at an empty place': {0: 2800, 3: 120, 4: 30, 6: 20},
    'enter_height, at a filled place': {0: 1100, 3: 50, 4: 15, 6: 14},
    'enter_position': {0: 4100, 2: 40, 3: 45, 4: 280, 5: 180, 6: 80, 25: 1200},
    'enter_position, at an empty place': {0: 3100, 3: 28, 4: 180, 5: 110, 6: 50},
    'enter_position, at a filled place': {0: 950, 3: 18, 4: 95, 5: 60, 6: 30},
    'strike': {0: 850, 2: 28, 7: 550, 25: 1200},
    'undo': {0: 3500, 8: 300, 25: 1200},
    'accepted edits': {
        'enter at an empty place': 9500, 'enter over another record': 2500, 'enter over an equal record': 680, 'strike': 1100, 'undo of enter at an empty place': 2100,
        'undo of enter over another record': 850, 'undo of enter over an equal record': 220, 'undo of strike': 520},
    'records over others of another kind': {
        **dict.fromkeys(('%s over %s' % pair for pair in itertools.permutations(('baseline', 'height difference', 'position'), 2)), 250),
        **dict.fromkeys(('undo of %s over %s' % pair for pair in itertools.permutations(('baseline', 'height difference', 'position'), 2)), 85)},
    'undone at once, history not full': {'enter at an empty place': 700, 'enter over another record': 300, 'enter over an equal record': 70},
    'undone at once, history full': {'enter at an empty place': 60, 'enter over another record': 40, 'enter over an equal record': 8},
    'undone at once, restored': {'nothing': 730, 'height difference': 130, 'baseline': 60, 'baseline with antenna heights': 90, 'position': 120},
    'baselines with antenna heights': {                                  # 4 by one difference alone is for heights.py
        'accepted': 1200, 'accepted, where the observed difference would give 6': 1400, '4 by a height': 55, '4 by both differences': 12, '6 by both differences': 26,
        '6 by the reduced difference alone': 14, '4 by the observed difference alone, high': 0, '4 by the observed difference alone, low': 0,
        '4 by the reduced difference alone, high': 0, '4 by the reduced difference alone, low': 0},
    'check': {0: 240, 10: 450, 11: 420, 12: 28, 13: 20, 14: 21, 15: 45, 16: 50, 25: 1200},
    'check_sheet': {0: 440, 10: 550, 11: 470, 12: 28, 13: 20, 14: 24, 15: 35, 16: 60, 25: 1200},
    'check_distance': {-2: 80, 0: 90, 3: 270, 10: 340, 11: 350, 12: 15, 13: 13, 14: 22, 15: 20, 16: 35, 17: 45, 25: 1200},
    'propose': {-1: 430, 0: 420, 10: 450, 25: 1200},
    'unknowns': {0: 1300, 25: 1200},
    'sheet_bytes': {0: 1400, 25: 1200},
    'stations': {0: 1050, 10: 220, 25: 1200},
    'record': {0: 800, 2: 330, 10: 160, 25: 1200},
    'check, length of x': lengths(30),
    'check, length of m': lengths(30),
    'check_sheet, length of x': lengths(18),
    'check_sheet, length of m': lengths(18),
    'check_sheet, length of sheet': lengths(18),
    'check_distance, length of x': lengths(30),
    'check_distance, length of m': lengths(30),
    'propose, length of x': lengths(30),
    'propose, length of m': lengths(30),
    'stations, length of list': lengths(50),
    'record, length of record': lengths(50),
    'damage: cut short': {'refused': 140},
    'damage: a bit': {'refused': 130, 'read': 20},
    'damage: a word': {'refused': 130, 'read': 8},
    'damage: a head': {'refused': 110, 'read': 11},
    'damage: a journal word': {'refused': 95, 'read': 50},
    'damage: places exchanged': {'refused': 20, 'read': 80},
    'damage: layout number 1': {'refused': 80},
    'damage: layout number 2': {'refused': 65},
    'damage: antenna heights of a baseline': {'refused': 40, 'read': 11},
    **dict.fromkeys(('damage: ' + what for what in (
        'antenna heights of a height difference', 'antenna heights of a position', 'antenna heights of nothing', 'kind of a baseline', 'kind of a height difference',
        'kind of a position', 'kind of nothing', 'to of a position')), {'refused': 40}),
    'record, what it read': {'baseline': 50, 'baseline with antenna heights': 80, 'height difference': 120, 'position': 110, 'nothing': 440},
    'the unknown of 11': {'the first': 780, 'a later one': 470},
    'accepted sheets by unknowns': {'1 to 9': 300, '10 to 24': 90, '25 to 47': 32, '48': 19},
    'accepted sheets by global verdict': {'PASS': 12, 'LOW': 22, 'HIGH': 210, 'NONE': 190},
    'accepted sheets by their ties': {**ties(140), 'no station held': 110, 'a position at every station': 160, 'tied without positions': 190},
    'accepted sheets by a record in them': {
        'baseline known-known': 120, 'baseline known-free': 190, 'baseline known-height': 220, 'baseline free-free': 150, 'baseline free-height': 140, 'baseline height-height': 130,
        'height difference known-known': 120, 'height difference known-free': 150, 'height difference known-height': 220, 'height difference free-free': 130,
        'height difference free-height': 130, 'height difference height-height': 130, 'position known': 250, 'position free': 250, 'position height': 250},
    'D of accepted sheets with a check only': {'0': 3, 'to 30': 160, 'above': 120},
    'local verdicts of accepted sheets': {'PASS': 25_000, 'FAIL': 22_000, 'LOOSE': 1_300},
}

# tests/host/distances.py. 20,000 distances are to be asked, and a third of those that the seed gives to be refused; then what applies where one is refused, and what was near a limit
# with an accepted pair.
DISTANCES = {
    'distances': {'asked': 20_000, 'refused': 12_000},
    'networks by their ties': {**ties(19), 'no station held': 7, 'a position at every station': 8, 'tied without positions': 7},
    'check_distance': {-2: 12_000, 0: 8_000, 3: 6_000, 10: 650, 11: 320, 12: 320, 13: 320, 14: 320, 15: 230, 16: 400, 17: 5_000},
    'answers': {'agrees': 4_000, 'does not': 6_000},
    'what refuses': distance_refusals(120),
    'limits of 17': {**dict.fromkeys(('%s %d' % (name, value) for name, most in (('instrument_height', 300_000), ('target_height', 300_000), ('tolerance', 100_000))
                                      for value in (-1, 0, most, most + 1)), 32),
                     **dict.fromkeys(('distance 0', 'distance 1', 'distance 1800000000', 'distance 1800000001'), 32), 'tolerance s - 1': 190, 'tolerance s': 170},
    'extreme numbers': dict.fromkeys(('start', 'end', 'distance', 'instrument_height', 'target_height', 'tolerance', 'all but the ends'), 120),
    'D² beside (s - t)²': {'one below': 130, 'at': 170, 'one above': 150},
    'D² beside (s + t)²': {'one below': 130, 'at': 170, 'one above': 150},
    'size of D²': {'to 10^6': 190, 'to 10^12': 6_000, 'to 10^18': 2_700, 'to 2.9·10^18': 1_000, 'to 3·10^18': 10, 'above': 100},
}

# tests/host/heights.py. What the antenna heights lead to; both sides of every limit: of a height, of the U differences and of the misclosures, observed and reduced; what came back by
# an undo; the records that were compared with their reduced differences.
BESIDE_LIMITS = ['observed %+d, reduced %+d' % off for off in itertools.product((-1, 0, 1), repeat=2)]
HEIGHTS = {
    'open': {0: 30},
    'enter_baseline': {0: 1300, 4: 2500, 6: 300},
    'record': {0: 1100},
    'undo': {0: 800},
    'check_sheet': {0: 30},
    'baselines with antenna heights': {
        'accepted': 650, 'accepted, where the observed difference would give 6': 400, '4 by a height': 1900, '4 by both differences': 190,
        '4 by the observed difference alone, high': 100, '4 by the observed difference alone, low': 100, '4 by the reduced difference alone, high': 100,
        '4 by the reduced difference alone, low': 100, '6 by both differences': 100, '6 by the reduced difference alone': 180},
    'heights at their limits': dict.fromkeys(('%s %d' % at for at in itertools.product(('from', 'to'), (-1, 0, 1, 299_999, 300_000, 300_001))), 40),
    'heights far beyond': dict.fromkeys(('%s %d' % at for at in itertools.product(('from', 'to'), (-2 ** 63, -2 ** 63 + 1, -2 ** 62, 2 ** 62, 2 ** 63 - 2, 2 ** 63 - 1))), 180),
    'observed differences far beyond': {'high': 300, 'low': 300},
    **{limit: dict.fromkeys(BESIDE_LIMITS, 20) for limit in ('differences beside 1000000000', 'differences beside -1000000000', 'misclosures beside 100000', 'misclosures beside -100000')},
    'undone at once, restored': {'baseline with antenna heights': 700, 'baseline': 80, 'nothing': 20},
    'from mark to mark': {'baseline with antenna heights': 90, 'baseline': 1},
    'unknowns': {0: 800, 25: 500},
    'a height in the journal': {
        'accepted': 500, 'accepted, where the observed difference would give 6': 270, '4 by a height': 300, '4 by the reduced difference alone, high': 40,
        '4 by the reduced difference alone, low': 35, '6 by both differences': 65, '6 by the reduced difference alone': 70, 'no heights left': 45},
}

# tests/host/positions.py. At each limit the number that a position has: 0 where it is entered, else its refusal. Then each set of refusals that apply; what a position does for an
# unknown that has no chain without it; where it is on sheets, and the local verdicts that tell M_ss from another variance.
LIMITS_OF_POSITIONS = {
    'coordinates': dict.fromkeys(['%s %d: %d' % (c, sign * (500_000_000 + off), 4 if off > 0 else 0) for c, sign, off in itertools.product('ENU', (-1, 1), (-1, 0, 1))]
                                 + [c + ' far: 4' for c in 'ENU'], 6),
    'weights': dict.fromkeys(['%s %s' % at for at in itertools.product(('EE', 'NN', 'UU'), ('0: 4', '1: 0', '10000: 0', '10001: 4', 'far: 4'))]
                             + ['%s %s' % at for at in itertools.product(('EN', 'EU', 'NU'), ('9999: 0', '10000: 5', '10001: 4', '-9999: 0', '-10000: 5', '-10001: 4', 'far: 4'))], 6),
    'matrices': dict.fromkeys(['second minor 1: 0', 'second minor 0: 5', 'second minor below 0, the others above: 5', 'determinant 1: 0', 'determinant 0: 5', 'determinant below 0: 5']
                              + ['adjugate %s in %s: %d' % (most, c, number) for c in 'ENU' for most, number in (('16 determinants', 0), ('16 determinants and 1', 5))], 12),
    'misclosures': dict.fromkeys(('%s %s %d: %d' % (kind, c, sign * (100_000 + off), 6 if off > 0 else 0)
                                  for kind, c, sign, off in itertools.product(('known', 'free', 'height'), 'ENU', (-1, 1), (-1, 0, 1))), 6),
    'stations': {**{'%d of %d: %d' % (station, count, 0 if 1 <= station <= count else 3): 1 for count in (1, 2, 31, 32) for station in (0, 1, count, count + 1, 32, 33)}, 'far: 3': 18},
}
POSITIONS = {
    **LIMITS_OF_POSITIONS,
    'open': {0: 140},
    'enter_baseline': {0: 650},
    'enter_height': {0: 140},
    'enter_position': {0: 1200, 2: 95, 3: 75, 4: 450, 5: 220, 6: 110, 25: 190},
    'record': {0: 470},
    'strike': {0: 250},
    'undo': {0: 330},
    'undone at once, restored': {'nothing': 20, 'position': 310},
    'unknowns': {0: 950, 25: 1500},
    'in a place': {0: 470, 3: 25, 4: 430, 5: 210, 6: 100},
    'in the journal': {0: 470, 3: 25, 4: 430, 5: 210, 6: 100},
    'what refuses': dict.fromkeys((' '.join(numbers) for k in range(1, 7) for numbers in itertools.combinations(('25', '2', '3', '4', '5', '6'), k)), 6),
    'check': {11: 450, 14: 95},
    'a position for the first untied unknown': {
        'its own station, E: tied': 130, 'its own station, U: tied': 40, 'another station, E: tied': 15, 'another station, U: tied': 15, 'another station, E: not tied': 35,
        'another station, U: not tied': 7},
    'sheets by their ties': {**ties(65), 'no station held': 42, 'a position at every station': 12},
    'check_sheet': {0: 250},
    'positions on sheets': {'known': 330, 'free': 1400, 'height': 400},
    'their local verdicts': {'PASS': 4_500, 'FAIL': 1_300, 'LOOSE': 500},
    'verdicts that another variance would change': {'none': 800, 'M_ss twice': 1_000, 'that of a baseline': 3_800},
    'one position more': {'known': 5, 'free': 26, 'height': 9},
}

# tests/host/chains.py. Networks, and what a change made of them; the passes that a search by rising place needs in them, and the records of their longest chain: at most 16 stations are
# unknown in E and N, 32 in U. The unknown that a check is refused for: never N, since a station that is not tied in N is not tied in E. Then what ties stations, and where it stands.
CHAINS = {
    'open': {0: 850},
    'enter_baseline': {0: 16_000},
    'enter_height': {0: 6000},
    'enter_position': {0: 1400},
    'strike': {0: 1300},
    'undo': {0: 600},
    'check': {11: 2800, 12: 1300},
    'networks': {'line, tied': 260, 'line, not tied': 230, 'tree, tied': 75, 'tree, not tied': 70, 'scattered, tied': 60, 'scattered, not tied': 130},
    'a strike': {'tied to tied': 220, 'tied to not tied': 250, 'not tied to not tied': 850},
    'another record': {'tied to tied': 200, 'tied to not tied': 30, 'not tied to tied': 10, 'not tied to not tied': 400},
    'a position more': {'tied to tied': 200, 'tied to not tied': 15, 'not tied to tied': 120, 'not tied to not tied': 350},      # also over another record
    'an undo': {'tied to tied': 140, 'tied to not tied': 80, 'not tied to tied': 50, 'not tied to not tied': 350},
    'stations in the list, all tied': dict.fromkeys(range(1, 33), 6),
    'stations in the list, not all tied': dict.fromkeys(range(1, 33), 25),
    'passes in E that find a station, all tied': {**dict.fromkeys(range(17), 5), 0: 800, 1: 280},
    'passes in E that find a station, not all tied': {**dict.fromkeys(range(16), 3), 0: 1900, 1: 550, 16: 0},
    'passes in U that find a station, all tied': {**dict.fromkeys(range(31), 2), 0: 240, 1: 210, 31: 110},
    'passes in U that find a station, not all tied': {**dict.fromkeys(range(31), 3), 0: 900, 1: 450, 31: 12},
    'records of the longest chain in E': {**dict.fromkeys(range(17), 13), 16: 35},
    'records of the longest chain in U': {**dict.fromkeys(range(32), 10), 31: 250},
    'stations that are free, tied in': {'ENU': 10_000, 'EN': 1200, 'U': 4700, 'none': 6600},
    'stations that are height, tied in': {'U': 29_000, 'none': 16_000},
    'the station of 11': {**dict.fromkeys(range(1, 33), 2), 1: 1400, 32: 35},
    'the unknown of 11': {'E, its station tied in U': 600, 'E, its station tied in none': 800, 'U, its station tied in EN': 85, 'U, its station tied in none': 1300},
    'a position that ties its station, among the records there': {'alone': 500, 'before them': 650, 'between them': 40, 'after them': 550},
    'what alone tied a station': {
        'baseline at 1': 24, 'baseline at 256': 24, 'baseline at a place between': 90, 'height difference at 1': 4, 'height difference at 256': 5,
        'height difference at a place between': 17, 'position at 1': 19, 'position at 256': 28, 'position at a place between': 35},
}

# tests/host/file_calls.py. Each word of an entry changed alone: with its sum wrong none reads; with it right, words that the kind uses and that are judged only when entered do, and of the
# kind and the place some values. Then the ways of damage: two of them leave a file, some may. What is shown, each set of refusals that apply, rooms, and what was written and entered.
USED_WORDS = {'baseline': range(2, 13), 'height difference': (2, 3, 6, 12), 'strike': ()}      # beside the kind and the place


def one_word(kind, word):
    """What came of a file of which this word, with its sum right, is another. A baseline uses all words, which any other kind has to be 0."""
    if word in USED_WORDS[kind]:
        return {'read': 20}
    if word == 1 or word == 0 and kind != 'baseline':
        return {'read': 1, 'refused': 15}
    return {'refused': 18}


def sets_in_force():
    """The sets of refusals that may apply to an entry in force: a place beyond 1 to 256 has no entry either."""
    sets = itertools.product(('', '2'), ('', '10'), ('', '18 night'), ('', '18 day'), ('', '20'))
    return [', '.join(filter(None, names)) or 'nothing' for names in sets if names[0] == '' or names[-1] == '20']


def sets_of(*numbers):
    return [', '.join(filter(None, names)) or 'nothing' for names in itertools.product(*(('', number) for number in numbers))]


FILES = {
    **{'word %d of a %s, its sum wrong' % (word, kind): {'refused': 18} for kind, word in itertools.product(USED_WORDS, range(16))},
    **{'word %d of a %s, its sum right' % (word, kind): one_word(kind, word) for kind, word in itertools.product(USED_WORDS, range(15))},
    'each bit flipped': {'refused': 3 * 8 * 128},
    'places of entries': {**dict.fromkeys(('%d: refused' % place for place in (0, 257, -1, 2 ** 32 + 1, 2 ** 62, 2 ** 63 - 1, -2 ** 63)), 3), '1: read': 3, '256: read': 3},
    'places asked for': dict.fromkeys((0, 1, 256, 257, -1, 2 ** 32 + 1, 2 ** 62, 2 ** 63 - 1, -2 ** 63), 2),
    'random whole files': {0: 400, 1: 380, 2: 800, 3: 800},              # by entries; 3 is three or more
    **dict.fromkeys((
        'a bit', 'a word', 'the front cut off', 'two entries exchanged', 'an entry left out', 'an entry twice', 'bytes appended', 'two files in one', 'the first points back',
        'a later one without a previous', 'a trailer that points elsewhere', 'the whole moved', 'a gap', 'the later entries as a file', 'a place beyond'), {'refused': 70}),
    'cut': {'refused': 70, 'read': 0},
    **dict.fromkeys(('cut between entries', 'an entry appended'), {'read': 70}),
    'a word, the sum right': {'refused': 45, 'read': 30},
    **dict.fromkeys(('two words of an entry exchanged', 'two words changed, the sum right'), {'refused': 55, 'read': 16}),
    'check_file': {0: 3000, 18: 4700},
    'entry_in_force': {0: 1500, 2: 950, 10: 400, 18: 1400, 20: 850},
    'shown': {**dict.fromkeys(('a record of the day file, the other has nothing', 'a record of the night file, the other has nothing', 'a record of the night file, the other has a record'), 250),
              **dict.fromkeys(('a strike of the day file, the other has nothing', 'a strike of the night file, the other has nothing', 'a strike of the night file, the other has a record',
                               'a record of the night file, the other has a strike'), 110), 'a strike of the night file, the other has a strike': 50},
    'entries for the place in the file that is shown': {'one': 850, 'several': 600},
    'what refuses an entry in force': dict.fromkeys(sets_in_force(), 6),
    'what refuses write_file': dict.fromkeys(sets_of('25', '10', '19'), 30),
    'what refuses enter_file': dict.fromkeys(sets_of('25', '10', '18'), 30),
    'write_file': {0: 1100, 10: 1100, 19: 1500, 25: 300},
    'enter_file': {0: 430, 10: 350, 18: 420, 25: 300},
    'answers to entries': {
        'baseline: 0': 5000, 'baseline: 3': 140, 'baseline: 4': 330, 'baseline: 5': 210, 'baseline: 6': 190, 'height difference: 0': 5700, 'height difference: 3': 140,
        'height difference: 4': 55, 'height difference: 6': 55, 'strike: 0': 1600, 'strike: 7': 1900},
    'room for a file': {**{name + ': written': 240 for name in ('as asked', 'a byte long', 'an item long', 'far longer')},
                        **{name + ': refused': 360 for name in ('as asked', 'a byte short', 'an item short', 'a byte long', 'an item long', 'far longer')}},
    'room for answers': {**{name + ': 0': 22 for name in ('as asked', 'a byte long', 'an item long', 'far longer')},
                         **{name + ': 18': 2 for name in ('as asked', 'a byte long', 'an item long', 'far longer')}, 'a byte short: 10': 22, 'an item short: 10': 22},
    'a part of an entry at the end': {10: 240, 18: 360},
    'not carried': dict.fromkeys(('%s at %s' % at for at in itertools.product(
        ('a position', 'a height at from', 'a height at to', 'two heights'), ('1', '256', 'a place between'))), 30),
    'damaged books': {'refused': 180, 'read': 20},
    'round trips by records': {**dict.fromkeys((0, 1, 2, 63, 64, 65, 255, 256), 6), 'others': 20},
    'large files': {'read': 1, 'refused': 3, 'entered': 1},
    'words in docs/FILES.md': {'compared': 32},
    'open': {0: 150},
    'enter_baseline': {0: 370, 2: 0, 3: 0, 4: 0, 5: 0, 6: 0},             # refused edits by themselves are for calls.py
    'enter_height': {0: 85, 2: 0, 3: 0, 4: 0, 6: 0},
    'enter_position': {0: 220, 2: 0, 3: 0, 4: 0, 5: 0, 6: 0},
    'strike': {0: 35, 2: 0, 7: 0},
    'undo': {0: 2200, 8: 0},
    'record': {0: 21_000},
}

# tests/host/salvage_calls.py. Each word of an entry changed alone: what is wrong then is skipped, and the first two words of the trailer may be any where the sum is right. Then the ways
# of damage, by what came of them; what was kept and skipped and why; and the rooms, of which one that is too short refuses all.
def word_salvaged(kind, word):
    """What came of an entry of which this word, with its sum right, is another."""
    if word in (13, 14):
        return {'kept': 20}
    return {{'read': 'kept', 'refused': 'skipped'}[came]: least for came, least in one_word(kind, word).items()}


SALVAGES = {
    **{'word %d of a %s, its sum wrong' % (word, kind): {'skipped': 20} for kind, word in itertools.product(USED_WORDS, range(16))},
    **{'word %d of a %s, its sum right' % (word, kind): word_salvaged(kind, word) for kind, word in itertools.product(USED_WORDS, range(15))},
    'each bit flipped': {'its entry skipped alone': 3 * 8 * 128},
    'cut at each byte': {'no bytes': 1, 'nothing kept': 127, 'nothing skipped': 3, 'both': 254},
    'moved by each number of bytes': {'nothing skipped': 1, 'nothing kept': 122, 'both': 17},
    'each number of bytes between': {'nothing skipped': 1, 'both': 139},
    'an overlap': {'both': 55, 'kept: first': 180},
    'an overlap, the first damaged': {'both': 55, 'kept: next': 180},
    'an entry over two': {'nothing skipped': 55, 'kept: first, third': 156},
    **dict.fromkeys((
        'a bit', 'a gap', 'a place beyond', 'a tail', 'a wrong kind', 'a wrong place', 'a wrong sum', 'a wrong zero', 'around a file', 'as much as entries put in', 'bytes appended',
        'words put in'), {'both': 55}),
    **dict.fromkeys(('a word', 'sparse entries'), {'both': 50, 'nothing skipped': 0}),
    **dict.fromkeys((
        'a later one without a previous', 'a trailer that points elsewhere', 'an entry appended', 'an entry left out', 'an entry twice', 'repeated', 'the first points back',
        'the later entries as a file', 'two entries exchanged', 'two files in one', 'wrong pointers'), {'nothing skipped': 55}),
    **dict.fromkeys((
        'a word, the sum right', 'halves exchanged', 'two words changed, the sum right', 'two words of an entry exchanged'), {'both': 20, 'nothing skipped': 20}),
    **dict.fromkeys((
        'a few bytes lost', 'a few bytes put in', 'as much as entries lost', 'cut', 'cut in a word', 'cut in an entry', 'in step again', 'lost and put in', 'overwritten', 'sent anew',
        'several holes', 'small words that add up', 'the whole moved', 'words lost'), {'both': 24, 'nothing kept': 11, 'nothing skipped': 0}),
    'the front cut off': {'both': 3, 'nothing kept': 30, 'nothing skipped': 20},
    'zeroed': {'both': 35, 'nothing kept': 8, 'nothing skipped': 11},
    'cut between entries': {'nothing skipped': 35, 'no bytes': 17},
    **dict.fromkeys(('noise', 'noise of words', 'one word throughout', 'out of step', 'small words'), {'nothing kept': 55}),
    'nothing': {'no bytes': 55},
    'large files': dict.fromkeys(('whole: nothing skipped', 'damaged: both', 'of ones: nothing kept', 'noise: nothing kept'), 1),
    'a large damaged file': {'entries': 4500, 'runs': 95},
    'files of books': {'both': 23, 'nothing kept': 3, 'nothing skipped': 4, 'no bytes': 0},
    'kept entries': {0: 750, 1: 650, 2: 2200, 3: 2200},                  # by how many; 3 is three or more, here and below
    'skipped runs': {0: 1500, 1: 4000, 2: 120, 3: 65},
    'kept, by kind': {'%s, its trailer %s' % of: 2000 for of in itertools.product(USED_WORDS, ('right', 'wrong'))},
    'kept, by start': {'at a multiple of 128': 25_000, 'between': 3200},
    'runs': {'at the start, of whole words': 1000, 'between, of whole words': 1500, 'at the end, of whole words': 1000, 'at the end, of other bytes': 450,
             'the whole, of whole words': 340, 'the whole, of other bytes': 340},
    'lengths of runs': {'less than a word': 45, 'less than an entry': 1300, 'an entry or more': 3300},
    'steps not kept': {'kind alone': 370, 'place alone': 220, 'zeros alone': 640, 'sum alone': 4400, 'several things': 80_000, 'too few bytes alone': 25_000},
    'right entries within a kept one, by words': dict.fromkeys(range(1, 16), 12),
    'room': {**dict.fromkeys(('as asked: 0', 'longer: 0', 'most: 0', 'one longer: 0'), 5800), 'all short: 10': 5800},
    **{'room for ' + name: {'a byte short: 10': 4000, 'more short: 10': 4000} for name in ('fresh', 'skipped', 'kept', 'counts')},
    'salvage': {0: 30_000, 10: 46_000},
    'words in docs/FILES.md': {'compared': 11},
    'check_file': {0: 6000},
    'open': {0: 90},
    'write_file': {0: 30},
    'enter_file': {0: 60},
    'answers to entries': {
        'baseline: 0': 330, 'baseline: 3': 0, 'baseline: 4': 0, 'baseline: 5': 0, 'baseline: 6': 0, 'height difference: 0': 430, 'height difference: 3': 0, 'height difference: 4': 0,
        'height difference: 6': 0, 'strike: 0': 80, 'strike: 7': 0},    # refused entries are for file_calls.py
    'enter_baseline': {0: 110, 3: 0, 4: 0, 5: 0, 6: 0},
    'enter_height': {0: 140, 3: 0, 4: 0, 6: 0},
    'strike': {0: 0, 7: 0},
}

# tests/host/flips.py, by the part of the book; the antenna heights and the words of positions are among the places and the journal
FLIPS = {
    'flips': {'tried': 449_792},
    'flips that read, judged': {'places': 3000, 'journal': 2900, 'antenna heights': 700, 'another word of a position': 1500},
    'refused flips, judged': {
        'stations': 600, 'places': 900, 'journal': 7000, 'normals': 600, 'antenna heights': 700, 'kind of a position': 100, 'to of a position': 100, 'another word of a position': 1000},
}


class Coverage:
    """Counts of what was met, by a name and what came under it."""

    def __init__(self):
        self.seen = {}

    def note(self, what, which, times=1):
        self.seen.setdefault(what, Counter())[which] += times

    def shortfalls(self, table):
        """A line for each count of the table that was not reached, and for each thing met that the table does not have."""
        short = ['coverage: %s: %s came %d times, not %d' % (what, which, self.seen.get(what, {}).get(which, 0), least)
                 for what, row in table.items() for which, least in row.items() if self.seen.get(what, {}).get(which, 0) < least]
        return short + ['coverage: %s: %s is not foreseen' % (what, which) for what, row in self.seen.items() for which in row if which not in table.get(what, {})]

    def text(self):
        return '\n'.join('%s: %s' % (what, ', '.join('%s %d times' % (which, row[which]) for which in sorted(row, key=str))) for what, row in sorted(self.seen.items()))
