"""Records by their kind and the kinds of the stations at their ends, baselines by their antenna heights and what these lead to, networks by what positions tie,
positions by what their values lead to, and edits by what they find at their place, for what the tests must have met."""
from dataclasses import replace
from itertools import permutations

import survey

STATIONS = {survey.KNOWN: 'known', survey.FREE: 'free', survey.HEIGHT: 'height'}
RECORDS = {survey.Baseline: 'baseline', survey.Level: 'height difference', survey.Position: 'position'}
CHECK_ONLY = {'baseline known-known', 'height difference known-known', 'position known'}


def of(net, r):
    """`baseline known-height`, whichever end is from; `position known`."""
    ends = sorted(net.at(s).kind for s, _ in r.ends)
    return '%s %s' % (RECORDS[type(r)], '-'.join(STATIONS[kind] for kind in ends))


def of_place(r):
    """What a place holds: `baseline with antenna heights`."""
    if r is None:
        return 'nothing'
    return RECORDS[type(r)] + (' with antenna heights' if isinstance(r, survey.Baseline) and any(r.heights) else '')


# what the antenna heights and the U difference of a baseline lead to
HEIGHT_OUTCOMES = ('accepted', 'accepted, where the observed difference would give 6', '4 by a height', '4 by both differences', '4 by the observed difference alone, high',
                   '4 by the observed difference alone, low', '4 by the reduced difference alone, high', '4 by the reduced difference alone, low', '6 by both differences',
                   '6 by the reduced difference alone')


def of_heights(net, r):
    """That of this baseline; None where it has no heights, or is refused for anything else."""
    if not isinstance(r, survey.Baseline) or r.heights == (0, 0) or not survey.ends_fit(net, r):
        return None
    up, provisional = r.observed[2], net.provisional(r, 2)
    if survey.record_number(net, replace(r, observed=(*r.observed[:2], provisional), heights=(0, 0))) != 0:
        return None
    if not all(0 <= h <= survey.MOST_HEIGHT_ABOVE_MARK for h in r.heights):
        return '4 by a height'
    reduced = r.reduced[2]
    beyond = [name for name, v in (('observed', up), ('reduced', reduced)) if abs(v) > survey.MOST_DIFFERENCE]
    if len(beyond) == 1:
        return '4 by the %s difference alone, %s' % (beyond[0], 'high' if reduced > 0 else 'low')
    if beyond:
        return '4 by both differences'
    observed_fits, reduced_fits = (abs(v - provisional) <= survey.MOST_MISCLOSURE for v in (up, reduced))
    if reduced_fits:
        return 'accepted' if observed_fits else 'accepted, where the observed difference would give 6'
    return '6 by the reduced difference alone' if observed_fits else '6 by both differences'


TIES = (*('tied in %s by positions alone' % name for name in 'ENU'), 'no station held', 'a position at every station')


def of_ties(net, records):
    """Such of a network that is tied: in E by positions alone, where a station unknown in E has no chain without them."""
    numbers = range(1, len(net.stations) + 1)
    others = {place: r for place, r in records.items() if not isinstance(r, survey.Position)}
    found = {tie for c, tie in enumerate(TIES[:3]) if any(net.at(s).unknown(c) and s not in survey.tied(net, others, c) for s in numbers)}
    free = all(net.at(s).kind == survey.FREE for s in numbers)
    everywhere = {r.station for r in records.values() if isinstance(r, survey.Position)} == set(numbers)
    return found | {tie for tie, holds in zip(TIES[3:], (free, everywhere)) if holds}


# Limits of a position, with the refusal beyond each; the least leading minor is 1 at its limit, 0 beyond it.
POSITION_LIMITS = {'a coordinate': 4, 'a weight': 4, 'a diagonal weight': 4, 'a minor': 5, 'the factor of 16': 5, 'a misclosure': 6}
# what a position leads to, also by a value at its limit or one beyond it
POSITION_OUTCOMES = ('accepted', 'refused 3', 'refused 4', 'refused 5', 'refused 6', *('accepted, %s at its limit' % what for what in POSITION_LIMITS),
                     *('refused %d, %s one beyond its limit' % (number, what) for what, number in POSITION_LIMITS.items()))


def of_position(net, r):
    """Such of this record; none where it is not a position."""
    if not isinstance(r, survey.Position):
        return set()
    number = survey.record_number(net, r)
    outcome = 'refused %d' % number if number else 'accepted'
    if number == 3:
        return {outcome}
    ee, en, _, nn, _, uu = r.weights
    det = r.determinant()
    beyond = {'a coordinate': max(map(abs, r.observed)) - survey.MOST_COORDINATE, 'a misclosure': max(abs(net.misclosure(r, c)) for c in r.components) - survey.MOST_MISCLOSURE,
              'a weight': max(map(abs, r.weights)) - survey.MOST_WEIGHT, 'a diagonal weight': 1 - min(ee, nn, uu), 'a minor': 1 - min(ee, ee * nn - en * en, det),
              'the factor of 16': max(r.adjugate(c) for c in r.components) - 16 * det}
    return {outcome} | {'%s, %s %s its limit' % (outcome, what, ('at', 'one beyond')[by]) for what, by in beyond.items() if by in (0, 1)}


def of_edit(call, before, after):
    """An accepted edit, by what its place holds before and after it: `enter over another record`, `undo of strike`."""
    if call == 'undo':
        return 'undo of ' + of_edit('strike' if before is None else 'enter', after, before)
    if call == 'strike':
        return call
    return 'enter at an empty place' if before is None else 'enter over an equal record' if before == after else 'enter over another record'


EXCHANGES = tuple(undo + '%s over %s' % pair for undo in ('', 'undo of ') for pair in permutations(RECORDS.values(), 2))


def of_exchange(call, before, after):
    """An accepted enter over a record of another kind, as `position over baseline`, or its undo; None for any other edit."""
    if before is None or after is None or type(before) is type(after):
        return None
    if call == 'undo':
        return 'undo of ' + of_exchange('enter', after, before)
    return '%s over %s' % (RECORDS[type(after)], RECORDS[type(before)])
