"""Document 003's constrained adjustment, as the program `test_surveys` has it, against what the document prints, and against the same adjustment with lengths and weights as they are
there, not rounded to whole numbers. Each test is given the rows of the stations on the program's sheet, and gives what is wrong, or None."""
import math
from fractions import Fraction

import documents
import solve
import survey

REFINEMENT = 10_000         # of lengths and weights, where they are not rounded
PRINTED = ('22', '23', '24', '26')      # marks whose uncertainties can be compared: the document's slope distances and angles, which no book takes, reach 21 and 25 too
HALF = 0.5                  # of a millimetre, the last digit of the printed uncertainties
NEAR = (0.05, 0.05, 0.5), (0.03, 0.03, 0.03)        # mm by which rounding may move coordinates, and change uncertainties
SIGMA_ZERO = '1.139'        # section 6.1.1: of the baselines alone, mark 22 held, with the first rescaled
DEVIATIONS = 1.96           # in a 95% uncertainty; also the limit of a normalised residual


class Refined:
    """The exact answer of the survey that is not rounded, with these kinds of record and these marks known."""

    def __init__(self, kinds=(survey.Baseline, survey.Level, survey.Position), known=()):
        self.site = documents.Site(REFINEMENT)
        stations, records = documents.positions_003(REFINEMENT)
        stations = [survey.Station(survey.KNOWN if name in known else kind, *coordinates) for name, (kind, *coordinates) in zip(self.site.names, stations)]
        self.net = survey.Network(stations)
        self.records = {place: r for place, r in records.items() if isinstance(r, kinds)}
        self.d, self.y, self.z = solve.exact(*survey.normals(self.net, self.records))

    def rows(self):
        """The stations as on a sheet: number, coordinates, variances."""
        for number, station in enumerate(self.net.stations, 1):
            indices = [self.net.index.get((number, c)) for c in range(3)]
            coordinates = [station.coordinate(c) + (0 if i is None else Fraction(self.y[i], self.d)) for c, i in enumerate(indices)]
            yield [number, *coordinates, *(0 if i is None else Fraction(survey.S * self.z[i][i], self.d) for i in indices)]

    def sigma_zero(self):
        total = Fraction(survey.square_sum(self.net, self.records, self.y, self.d), self.d ** 2 * self.site.factor * 1000 ** 2)
        return '%.3f' % (total / survey.freedom(self.net, self.records))

    def normalised(self, r, direction):
        """The residual of a baseline between free stations, in a direction of E, N, U, over its standard deviation."""
        lengths = [part * float(unit) for part, unit in zip(direction, self.site.units)]
        v = sum(length * survey.residual(self.net, r, self.y, c, self.d) / self.d for c, length in enumerate(lengths))
        variances = dict(zip(documents.UPPER, documents.inverse(*map(Fraction, r.weights))))
        square = 0
        for a in range(3):
            for b in range(3):
                adjusted = sum(i * j * Fraction(self.z[self.net.index[s, a]][self.net.index[t, b]], self.d) for s, i in r.ends for t, j in r.ends)
                square += lengths[a] * lengths[b] * float(variances[min(a, b), max(a, b)] - adjusted)
        return v / (1000 * math.sqrt(square * self.site.factor))


def millimetres(row, site):
    """Coordinates and 95% uncertainties of a station's row on a sheet."""
    units = [float(1000 * unit) for unit in site.units]
    uncertainties = [DEVIATIONS * 1000 * unit * math.sqrt(v * site.factor / survey.S) for v, unit in zip(row[4:], units)]
    return [float(v) * unit for v, unit in zip(row[1:4], units)], uncertainties


def table_12(rows):
    site = documents.Site()
    for name in PRINTED:
        _, ours = millimetres(rows[site.number(name) - 1], site)
        if any(abs(v - printed) > HALF for v, printed in zip(ours, documents.UNCERTAINTIES_003[name])):
            return 'uncertainties of mark %s: %s, where Table 12 has %s' % (name, ours, documents.UNCERTAINTIES_003[name])
    return None


def unrounded(rows):
    refined = Refined()
    for row, other in zip(rows, refined.rows()):
        for ours, exact, near in zip(millimetres(row, documents.Site()), millimetres(other, refined.site), NEAR):
            if any(abs(a - b) > most for a, b, most in zip(ours, exact, near)):
                return 'station %d has %s, and not rounded %s' % (row[0], ours, exact)
    return None


def baselines_alone(_):
    found = Refined((survey.Baseline,), known=('21', '22', '25')).sigma_zero()
    return None if found == SIGMA_ZERO else 'sigma zero of the baselines alone is %s, where the document has %s' % (found, SIGMA_ZERO)


def local_tests(_):
    """In X, Y and Z every baseline passes, as the document says; in E, N and U the first fails in E."""
    refined = Refined()
    baselines = [r for r in refined.records.values() if isinstance(r, survey.Baseline)]
    largest = max(abs(refined.normalised(r, direction)) for r in baselines for direction in zip(*refined.site.axes))
    first = abs(refined.normalised(baselines[0], (1.0, 0.0, 0.0)))
    return None if largest < DEVIATIONS < first else 'the largest normalised residual in X, Y, Z is %.3f, and that of the first baseline in E %.3f' % (largest, first)


TESTS = [table_12, unrounded, baselines_alone, local_tests]
