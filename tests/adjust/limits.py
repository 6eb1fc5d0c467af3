"""Both sides of every limit of the global test: for each D from 1 to 30 a network whose T is just a limit, and one whose T is one less or one more; and D = 0 and D = 31, where there is
no test. Each also with a record between two known stations or a position at one beside, as far off as may be: it is a check only, so T, D and the verdict are the same. And where three
of the residuals are 0, each also with a position at the unknown height instead of these, which has residuals of 0 and counts as three.

All other records join a known station to one unknown height, both at 0, and the correction given is 0: a record's difference is its residual. It lies within what the check allows of
the exact answer as long as the weighted residuals nearly cancel."""
import inputs
import solve
import survey

# The table as document 01 has it, lower/upper in thousandths.
LIMITS = '''1/5024, 51/7378, 216/9348, 484/11143, 831/12833, 1237/14449, 1690/16013, 2180/17535, 2700/19023, 3247/20483, 3816/21920, 4404/23337, 5009/24736, 5629/26119, 6262/27488,
6908/28845, 7564/30191, 8231/31526, 8907/32852, 9591/34170, 10283/35479, 10982/36781, 11689/38076, 12401/39364, 13120/40646, 13844/41923, 14573/43195, 15308/44461, 16047/45722, 16791/46979'''


def pair(t):
    """Two residuals of opposite signs with their weights, whose weighted squares are t and whose weighted sum is small."""
    for v in range(1, 60):
        a, b = v * v, (v + 1) * (v + 1)
        for first in range(t * pow(a, -1, b) % b, 10_001, b):
            second = (t - first * a) // b
            if 1 <= first and 1 <= second <= 10_000 and 10 * abs(first * v - second * (v + 1)) <= 8 * (first + second):
                return [(v, first), (-v - 1, second)]
    raise ValueError('no pair for %d' % t)


def records(d, t):
    """D + 1 residuals with their weights, whose weighted squares are t."""
    large = []
    if d >= 3 and t > 4_000_000:
        v = int(((t - 1_000_000) / 20_000) ** 0.5)
        large = [(v, 10_000), (-v, 10_000)]
    found = large + pair(t - sum(w * v * v for v, w in large))
    return found + [(0, 1)] * (d + 1 - len(found))


MOST = survey.MOST_MISCLOSURE
FULL = (10_000, 0, 0, 10_000, 0, 10_000)
CHECKS_ONLY = (survey.Level(1, 3, MOST, 10_000), survey.Baseline(3, 1, (-MOST, MOST, MOST), FULL), survey.Position(3, (-MOST, MOST, -MOST), FULL))
THREE_ZEROS, ZERO_POSITION = [(0, 1)] * 3, survey.Position(2, (0, 0, 0), (1, 0, 0, 1, 0, 1))
LAST_PLACE = 256


def network(held, other=None):
    """The input of these residuals with their weights, and of another record."""
    text = [b'S 1 K 0 0 0', b'S 2 V 0 0 0', b'S 3 K 0 0 0'] + [inputs.joined(b'H', k, 1, 2, v, w) for k, (v, w) in enumerate(held, 1)]
    if other:
        text.append(inputs.record_line(LAST_PLACE, other))
    weight = sum(w for _, w in held) + (1 if other is ZERO_POSITION else 0)
    return b'\n'.join(text + [b'X 0', inputs.joined(b'M', solve.nearest(survey.S, weight))]) + b'\n'


def global_lines():
    """(residuals with their weights, T, D, verdict)"""
    yield [(0, 1)], 0, 0, b'NONE'
    for d, limits in enumerate(LIMITS.split(','), 1):
        lower, upper = (1000 * int(v) for v in limits.split('/'))
        for t, verdict in ((lower - 1, b'LOW'), (lower, b'PASS'), (upper, b'PASS'), (upper + 1, b'HIGH')):
            yield records(d, t), t, d, verdict
    for t in (1_000, 50_000_000):
        yield records(31, t), t, 31, b'NONE'


def cases():
    """(input, its last line)"""
    for held, t, d, verdict in global_lines():
        last = b'GLOBAL %d %d %s' % (t, d, verdict)
        for check_only in (None, *CHECKS_ONLY):
            yield network(held, check_only), last
        if held[-3:] == THREE_ZEROS:
            yield network(held[:-3], ZERO_POSITION), last
