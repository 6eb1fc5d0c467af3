"""What must hold of a sheet that the engine's own proposal led to.

Document 01 does not fix the engine's pair (x, M), only that the check accepts it. From the printed sheet x is known, and of M the diagonal. Compared here:
- counts, station and place numbers, held coordinates, variances 0 at held components: as the definitions give them;
- each correction within one unit of the exact answer, and within test 3; r = u − Nx within test 6;
- residuals, T, D and the global verdict: by the definitions, from the printed coordinates;
- each variance within document 01's column promise of S times the exact inverse, and within test 4;
- each local verdict: one that some q gives, where q takes the printed variances, and for the entries of M that are not printed all that the column promise leaves.
"""
from itertools import permutations
import os
import sys

sys.path.insert(0, os.path.join(os.path.dirname(os.path.abspath(__file__)), '..', 'reference'))
import lines
import solve
import survey

S = survey.S


def rounded(net, records):
    """The exact pair, rounded, where the check accepts it; None otherwise."""
    pair = None if survey.untied(net, records) else solve.rounded(*survey.normals(net, records))
    return pair if pair and survey.check(net, records, *pair) == (0,) else None


class Exact:
    """The exact answer and inverse, and how far an accepted pair may be from them."""

    def __init__(self, net, records):
        self.matrix, self.right = survey.normals(net, records)
        self.d, self.y, self.z = solve.exact(self.matrix, self.right)
        n = range(net.n)
        self.largest = [max(abs(self.z[k][j]) for k in n) for j in n]

    def correction(self, i, x):
        return abs(self.y[i] - self.d * x) <= self.d

    def entry(self, i, j, m):
        return 16 * abs(self.d * m - S * self.z[i][j]) <= S * self.largest[j]

    def range(self, i, j):
        """The least and the greatest whole number that `entry` takes."""
        low = 16 * S * self.z[i][j] - S * self.largest[j]
        high = 16 * S * self.z[i][j] + S * self.largest[j]
        return -(-low // (16 * self.d)), high // (16 * self.d)


def verdicts(q_low, q_high, v):
    """The verdicts of a residual for q from q_low to q_high."""
    words = set()
    if q_low < 2 ** 14:
        words.add('LOOSE')
    if q_high >= 2 ** 14:
        for q in (max(q_low, 2 ** 14), q_high):
            words.add('FAIL' if v * v * 2 ** 24 > 60025 * q else 'PASS')
    return words


def local_range(net, exact, diagonal, r, c):
    """The least and the greatest q of a component."""
    ends = [net.index[s, c] for s, _ in r.ends if (s, c) in net.index]
    q = r.variance(c) - sum(diagonal[i] for i in ends)
    between = [exact.range(i, j) for i, j in permutations(ends, 2)]        # M_tf and M_ft, added to q
    return q + sum(low for low, _ in between), q + sum(high for _, high in between)


def judge(net, records, text):
    """What is wrong with the sheet; None where nothing is."""
    if survey.untied(net, records):
        return 'a sheet for a network that is not tied'
    rows = [line.split(' ') for line in text.decode('ascii').split('\n')]
    if len(rows) != 3 + len(net.stations) + len(records) or rows.pop() != ['']:
        return 'wrong number of lines'
    if rows[0] != ['SHEET', str(len(records)), 'RECORDS', str(net.n), 'UNKNOWNS']:
        return 'wrong head'
    exact = Exact(net, records)
    x, diagonal = [None] * net.n, [None] * net.n
    for number, station in enumerate(net.stations, 1):
        words = [int(f) for f in rows[number]]
        if len(words) != 7 or words[0] != number:
            return 'wrong line of station %d' % number
        for c in range(3):
            move, variance = words[1 + c] - station.coordinate(c), words[4 + c]
            i = net.index.get((number, c))
            if i is None and (move, variance) != (0, 0):
                return 'station %d moves where it is held' % number
            if i is not None:
                x[i], diagonal[i] = move, variance
                if abs(move) > 100_000 or not exact.correction(i, move):
                    return 'the correction of unknown %d is not within one unit' % (i + 1)
                if abs(variance) > 2 ** 34 or not exact.entry(i, i, variance):
                    return 'the variance of unknown %d is beyond the promise' % (i + 1)
    n = range(net.n)
    if any(abs(exact.right[i] - sum(exact.matrix[i][j] * x[j] for j in n)) > 2 ** 23 for i in n):
        return 'u - Nx beyond test 6'
    for fields, (place, r) in zip(rows[1 + len(net.stations):], sorted(records.items())):
        count = len(r.components)
        residuals = [survey.residual(net, r, x, c) for c in r.components]
        if fields[:1 + count] != [str(v) for v in [place] + residuals] or len(fields) != 1 + 2 * count:
            return 'wrong residuals at place %d' % place
        for c, v, word in zip(r.components, residuals, fields[1 + count:]):
            if word not in verdicts(*local_range(net, exact, diagonal, r, c), v):
                return 'wrong verdict at place %d' % place
    t, d = survey.square_sum(net, records, x), survey.freedom(net, records)
    if rows[-1] != ['GLOBAL', str(t), str(d), lines.WORDS[survey.global_verdict(t, d)]]:
        return 'wrong last line'
    return None
