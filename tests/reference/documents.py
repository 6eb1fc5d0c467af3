"""The surveys printed in source documents 002 and 003, as stations and records of document 01.

    documents.py NAME         writes the survey as input of the program

Document 01's unit is 0.01 mm, and weight 1 a standard deviation of 1,000 units. A survey whose lengths do not fit that unit, or whose weights would round to 0, is entered in another
unit here: then lengths are whole numbers of that unit, weight 1 is a standard deviation of 1,000 of them, and T over 1,000,000 is still the sum of squares of the document. That holds
also where E and N are in one unit and U in another: in an adjustment lengths in E, N and U meet only through a weight, which then has the units of its two components.
"""
import math
import sys
from fractions import Fraction

import solve
import survey

# Document 002, Table 17.1: from, to, differences in metres, covariance elements XX XY XZ YY YZ ZZ in square metres. The table gives F to A as
# -4,355.9062 in Z, the listing further down -4355.8962; the printed coordinates, residuals and reference variance follow from the listing, so its figure stands here.
TABLE_002 = '''
A C 11644.2232 3601.2165 3399.2550 9.884E-4 -9.580E-6 9.520E-6 9.377E-4 -9.520E-6 9.827E-4
A E -5321.7164 3634.0754 3173.6652 2.158E-4 -2.100E-6 2.160E-6 1.919E-4 -2.100E-6 2.005E-4
B C 3960.5442 -6681.2467 -7279.0148 2.305E-4 -2.230E-6 2.070E-6 2.546E-4 -2.230E-6 2.252E-4
B D -11167.6076 -394.5204 -907.9593 2.700E-4 -2.750E-6 2.850E-6 2.721E-4 -2.720E-6 2.670E-4
D C 15128.1647 -6286.7054 -6371.0583 1.461E-4 -1.430E-6 1.340E-6 1.614E-4 -1.440E-6 1.308E-4
D E -1837.7459 -6253.8534 -6596.6697 1.231E-4 -1.190E-6 1.220E-6 1.277E-4 -1.210E-6 1.283E-4
F A -1116.4523 -4596.1610 -4355.8962 7.475E-5 -7.900E-7 8.800E-7 6.593E-5 -8.100E-7 7.616E-5
F C 10527.7852 -994.9377 -956.6246 2.567E-4 -2.250E-6 2.400E-6 2.163E-4 -2.270E-6 2.397E-4
F E -6438.1364 -962.0694 -1182.2305 9.442E-5 -9.200E-7 1.040E-6 9.959E-5 -8.900E-7 8.826E-5
F D -4600.3787 5291.7785 5414.4311 9.330E-5 -9.900E-7 9.000E-7 9.875E-5 -9.900E-7 1.204E-4
F B 6567.2311 5686.2926 6322.3917 6.643E-5 -6.500E-7 6.900E-7 7.465E-5 -6.400E-7 6.048E-5
B F -6567.2310 -5686.3033 -6322.3807 5.512E-5 -6.300E-7 6.100E-7 7.472E-5 -6.300E-7 6.629E-5
A F 1116.4577 4596.1553 4355.9141 6.619E-5 -8.000E-7 9.000E-7 8.108E-5 -8.200E-7 9.376E-5
A B 7683.6883 10282.4550 10678.3008 7.2397E-4 -7.280E-6 7.520E-6 6.762E-4 -7.290E-6 7.310E-4
'''
CONTROL_002 = {'A': ('402.35087', '-4652995.30109', '4349760.77753'), 'B': ('8086.03178', '-4642712.84739', '4360439.08326')}
RESIDUALS_002 = '''
0.00669 0.00203 0.03082
0.02645 0.00582 0.01068
0.00478 0.01153 -0.00511
-0.00731 -0.00136 -0.00194
-0.00081 -0.00801 -0.00037
-0.01005 0.00268 0.00109
0.00198 0.00524 -0.01563
-0.00563 0.00047 -0.00140
-0.00387 -0.00514 -0.00545
-0.00561 -0.00232 0.00156
-0.00051 0.00534 0.00220
0.00041 0.00536 -0.01320
-0.00738 0.00046 -0.00227
'''
FIXED_002 = ('7683.6809', '10282.4537', '10678.3058')     # Table 17.2: the fixed differences from A to B; in Z the printed coordinates of A and B give 10,678.30573
ADJUSTED_002 = {'C': ('12046.58076', '-4649394.08256', '4353160.06335'), 'D': ('-3081.58313', '-4643107.36915', '4359531.12202'),
                'E': ('-4919.33908', '-4649361.21987', '4352934.45341'), 'F': ('1518.80119', '-4648399.14533', '4354116.68936')}

# Document 003, Table 3: mark 1, mark 2, X, Y, Z in metres, lower triangle of the variance matrix by rows: XX, YX YY, ZX ZY ZZ.
TABLE_003 = '''
26 23 -514.6419 -198.1707 415.4426 7.843397e-07 -6.374967e-07 1.135554e-06 5.704006e-07 -7.829256e-07 1.083241e-06
26 22 -296.5955 145.9824 461.6305 4.395123e-07 -2.398766e-07 3.260701e-07 2.487716e-07 -2.461248e-07 4.525997e-07
26 24 61.7913 317.7330 211.6262 3.443994e-07 -1.918564e-07 2.675435e-07 2.078026e-07 -2.246877e-07 4.216571e-07
23 22 218.0438 344.1575 46.1858 1.078977e-06 -7.029027e-07 9.465813e-07 7.132949e-07 -7.109973e-07 1.097470e-06
22 24 358.3865 171.7508 -250.0044 6.455877e-07 -3.771552e-07 4.988322e-07 4.081710e-07 -3.921777e-07 6.773083e-07
23 24 576.4315 515.9078 -203.8178 1.415800e-06 -9.109323e-07 1.185005e-06 9.537250e-07 -9.403620e-07 1.468584e-06
'''

SCALARS_003 = {('26', '23'): (1.0, 1.0, 5.0)}      # section 6.1.1: partial scalars in E, N and U that rescale the variance matrix of this baseline; the others stay

# Document 003, Tables 1 and 4: latitude and longitude of the marks, their AHD height H and geoid separation N in metres; H + N is the height above the ellipsoid.
MARKS_003 = '''
21 -35 58 47.8625 142 54 36.5997 103.70 4.512
22 -35 58 49.2624 142 54 48.7240 104.20 4.515
23 -35 58 51.1156 142 55 04.9316 104.10 4.518
24 -35 58 59.3020 142 54 34.6274 103.60 4.507
25 -35 59 03.0482 142 55 02.8142 102.80 4.512
26 -35 59 07.5727 142 54 46.2340 112.897 4.506
'''

# Document 003, Table 2: levelled differences with their standard deviations, in metres.
LEVELS_003 = '''
21 22 0.506 0.010
22 23 -0.045 0.011
23 25 -1.320 0.011
24 21 0.112 0.011
25 24 0.754 0.015
22 21 -0.506 0.010
23 22 0.042 0.011
25 23 1.318 0.011
21 24 -0.112 0.011
24 25 -0.740 0.015
'''

# Document 003, Table 10 and its text, the constraints. Mark 26 has X, Y, Z in metres and the lower triangle of its variance matrix, which is scaled by 7.5. Mark 23 has latitude and
# longitude with standard deviations of 0.0008", "approximately 0.025 m" in both, and, for want of a height above the ellipsoid, its AHD height with a standard deviation of 0.2 m.
POINT_26 = ('-4121849.2711', '3115877.9599', '-3726953.1897')
VARIANCES_26 = ('1.526881e-06', '-5.463696e-07', '1.407678e-06', '3.250046e-07', '-1.977427e-07', '1.250715e-06')
SCALARS_26 = (7.5, 7.5, 7.5)
POINT_23 = ('-35', '58', '51.1179', '142', '55', '04.9337', '104.1000')
DEVIATIONS_23 = ('0.025', '0.025', '0.200')
# Document 003, Table 12: 95% uncertainties of the marks in E, N and Up, in millimetres.
UNCERTAINTIES_003 = {'21': (6, 6, 9), '22': (5, 6, 8), '23': (5, 6, 8), '24': (5, 6, 8), '25': (6, 9, 10), '26': (5, 6, 8)}

SEMI_MAJOR_AXIS, FLATTENING = 6_378_137, 1 / 298.257222101      # GRS80, the ellipsoid of GDA2020; document 003 names the datum alone
UPPER = ((0, 0), (0, 1), (0, 2), (1, 1), (1, 2), (2, 2))        # the upper triangle of a matrix, by rows


def nearest(v):
    return solve.nearest(v.numerator, v.denominator)


def whole(metres, unit):
    return nearest(Fraction(metres) / unit)


def inverse(xx, xy, xz, yy, yz, zz):
    """The upper triangle of the inverse of a symmetric matrix, by its adjugate."""
    adj = (yy * zz - yz * yz, xz * yz - xy * zz, xy * yz - xz * yy, xx * zz - xz * xz, xy * xz - xx * yz, xx * yy - xy * xy)
    det = xx * adj[0] + xy * adj[1] + xz * adj[2]
    return [v / det for v in adj]


def weight_numbers(covariance, units, factor=1):
    """The weights of a variance matrix in square metres, in the units of its components, times the factor, rounded. The rules have no weight below 1 on the diagonal."""
    numbers = [nearest(v * factor * 1000 ** 2 * units[a] * units[b]) for v, (a, b) in zip(inverse(*map(Fraction, covariance)), UPPER)]
    return tuple(max(1, v) if a == b else v for v, (a, b) in zip(numbers, UPPER))


def level_weight(deviation, unit, factor=1):
    return nearest(factor * (1000 * unit / Fraction(deviation)) ** 2)


def rows_of(table):
    return [line.split() for line in table.strip().split('\n')]


def upper(xx, yx, yy, zx, zy, zz):
    """The upper triangle of a symmetric matrix, of its lower one."""
    return xx, yx, zx, yy, zy, zz


def baselines_002(factor=1, held='AB'):
    """Document 002's network in units of 0.1 mm (0.01 mm would put its baselines beyond the limits), coordinates from A. Provisional coordinates of a station that is not a control
    station are the printed ones to the metre. The document holds both control stations, which makes the last baseline a check only; with one held it is in the adjustment."""
    unit = Fraction(1, 10_000)
    names = 'ABCDEF'
    a = [Fraction(v) for v in CONTROL_002['A']]

    def coordinates(name):
        if name in CONTROL_002:
            return [whole(Fraction(v) - o, unit) for v, o in zip(CONTROL_002[name], a)]
        return [10_000 * whole(Fraction(v) - o, 1) for v, o in zip(ADJUSTED_002[name], a)]
    stations = [(survey.KNOWN if name in held else survey.FREE, *coordinates(name)) for name in names]
    records = [survey.Baseline(names.index(f) + 1, names.index(t) + 1, tuple(whole(v, unit) for v in seen), weight_numbers(covariance, (unit,) * 3, factor))
               for f, t, *rest in rows_of(TABLE_002) for seen, covariance in [(rest[:3], rest[3:])]]
    return stations, dict(enumerate(records, 1))


def printed_002():
    """What document 002 prints, in 0.01 mm, three numbers a row: coordinates of C to F less those of A, then residuals as observed minus adjusted (it has adjusted minus observed), and
    of the last baseline, which is a check only, observed minus fixed (Table 17.2 has the sizes alone)."""
    unit = Fraction(1, 100_000)
    a = [Fraction(v) for v in CONTROL_002['A']]
    rows = [[whole(Fraction(v) - o, unit) for v, o in zip(ADJUSTED_002[name], a)] for name in 'CDEF']
    observed = rows_of(TABLE_002)[-1][2:5]
    return rows + [[-whole(v, unit) for v in row] for row in rows_of(RESIDUALS_002)] + [[whole(Fraction(v) - Fraction(f), unit) for v, f in zip(observed, FIXED_002)]]


def baselines_003():
    """Document 003's baselines in document 01's own unit, mark 22 held. Provisional coordinates are those of the baselines at mark 22, to the centimetre."""
    unit = Fraction(1, 100_000)
    names = ['22', '23', '24', '26']
    records = []
    for f, t, x, y, z, *variances in rows_of(TABLE_003):
        records.append(survey.Baseline(names.index(f) + 1, names.index(t) + 1, tuple(whole(v, unit) for v in (x, y, z)), weight_numbers(upper(*variances), (unit,) * 3)))
    stations = [(survey.KNOWN, 0, 0, 0)]
    for name in names[1:]:
        r, sign = next((r, sign) for r in records for sign, ends in ((1, (1, names.index(name) + 1)), (-1, (names.index(name) + 1, 1))) if (r.start, r.end) == ends)
        stations.append((survey.FREE, *[sign * 1000 * solve.nearest(v, 1000) for v in r.observed]))
    return stations, dict(enumerate(records, 1))


def levels_003():
    """Document 003's levelling in units of 0.1 mm (10 mm would be weight 1 in document 01's unit), mark 22 held."""
    unit = Fraction(1, 10_000)
    heights = {name: height for name, *_, height, _ in rows_of(MARKS_003) if name != '26'}
    names = list(heights)
    stations = [(survey.KNOWN if name == '22' else survey.HEIGHT, 0, 0, whole(up, unit)) for name, up in heights.items()]
    records = [survey.Level(names.index(f) + 1, names.index(t) + 1, whole(up, unit), level_weight(deviation, unit)) for f, t, up, deviation in rows_of(LEVELS_003)]
    return stations, dict(enumerate(records, 1))


def radians(degrees, minutes, seconds):
    size = abs(Fraction(degrees)) + Fraction(minutes) / 60 + Fraction(seconds) / 3600
    return math.radians(-size if degrees.startswith('-') else size)


def geocentric(latitude, longitude, height):
    """X, Y, Z of a point at a height above the ellipsoid, in metres."""
    squared_eccentricity = FLATTENING * (2 - FLATTENING)
    radius = SEMI_MAJOR_AXIS / math.sqrt(1 - squared_eccentricity * math.sin(latitude) ** 2)       # of curvature, in the prime vertical
    from_axis = (radius + height) * math.cos(latitude)
    return from_axis * math.cos(longitude), from_axis * math.sin(longitude), (radius * (1 - squared_eccentricity) + height) * math.sin(latitude)


def axes(latitude, longitude):
    """E, N and U at a point, as directions in X, Y, Z."""
    sin_lat, cos_lat, sin_lon, cos_lon = math.sin(latitude), math.cos(latitude), math.sin(longitude), math.cos(longitude)
    return (-sin_lon, cos_lon, 0.0), (-sin_lat * cos_lon, -sin_lat * sin_lon, cos_lat), (cos_lat * cos_lon, cos_lat * sin_lon, sin_lat)


class Site:
    """The site frame of document 003's constrained adjustment: E, N, U at mark 26, from its X, Y, Z of Table 10. E and N are in units of 1/40 mm, in which mark 23's 25 mm is weight 1,
    and U in units of 1/12 mm, in which the largest weight of a baseline is 9,499. Mark 23's 0.2 m is then weight 0.17 in U, and becomes 1, the least, which is 83 mm: no unit has room
    for both. A refinement makes the units so many times smaller and all weights its square times as large: with a large one lengths and weights are as the document has them."""

    def __init__(self, refinement=1):
        self.units = tuple(unit / refinement for unit in (Fraction(1, 40_000), Fraction(1, 40_000), Fraction(1, 12_000)))
        self.factor = refinement ** 4
        marks = {name: values for name, *values in rows_of(MARKS_003)}
        self.names = list(marks)
        self.angles = {name: (radians(*values[:3]), radians(*values[3:6])) for name, values in marks.items()}
        self.heights = {name: Fraction(values[6]) for name, values in marks.items()}
        self.separations = {name: Fraction(values[7]) for name, values in marks.items()}
        self.axes = axes(*self.angles['26'])

    def number(self, name):
        return self.names.index(name) + 1

    def vector(self, xyz):
        """A difference in X, Y, Z, in metres, as whole numbers in E, N, U."""
        return tuple(whole(sum(a * float(v) for a, v in zip(axis, xyz)), unit) for axis, unit in zip(self.axes, self.units))

    def point(self, latitude, longitude, height):
        return self.vector([v - float(o) for v, o in zip(geocentric(latitude, longitude, height), POINT_26)])

    def covariance(self, lower, scalars):
        """A variance matrix of X, Y, Z as one of E, N, U, rescaled there by partial scalars."""
        xx, xy, xz, yy, yz, zz = map(float, upper(*lower))
        full = (xx, xy, xz), (xy, yy, yz), (xz, yz, zz)
        turned = [sum(self.axes[a][i] * full[i][j] * self.axes[b][j] for i in range(3) for j in range(3)) for a, b in UPPER]
        return [v * math.sqrt(scalars[a] * scalars[b]) for v, (a, b) in zip(turned, UPPER)]

    def weights(self, covariance):
        return weight_numbers(covariance, self.units, self.factor)


def constraints_003(site):
    """The positions of marks 26 and 23. Mark 23's AHD height is taken with its geoid separation: by the baselines from mark 26 it is then 0.12 m too low, and 4.64 m without."""
    *angles, height = POINT_23
    point = site.point(radians(*angles[:3]), radians(*angles[3:]), Fraction(height) + site.separations['23'])
    east, north, up = (Fraction(v) ** 2 for v in DEVIATIONS_23)
    return [survey.Position(site.number('26'), site.vector((0, 0, 0)), site.weights(site.covariance(VARIANCES_26, SCALARS_26))),
            survey.Position(site.number('23'), point, site.weights((east, 0, 0, north, 0, up)))]


def positions_003(refinement=1):
    """Document 003's constrained adjustment as far as a book takes it: the baselines, the levelled differences and the two constraints, without slope distances and angles. No station
    is known. Marks 21 and 25, which no baseline joins, are height stations. Provisional coordinates, and E and N of these two, are those of Table 1. A levelled difference has in U
    the misclosure that it has in AHD heights: geoid separations and curvature are in the provisional coordinates."""
    site = Site(refinement)
    stations = [(survey.HEIGHT if name in ('21', '25') else survey.FREE, *site.point(*site.angles[name], site.heights[name] + site.separations[name])) for name in site.names]
    records = []
    for f, t, x, y, z, *variances in rows_of(TABLE_003):
        covariance = site.covariance(variances, SCALARS_003.get((f, t), (1.0, 1.0, 1.0)))
        records.append(survey.Baseline(site.number(f), site.number(t), site.vector((x, y, z)), site.weights(covariance)))
    for f, t, up, deviation in rows_of(LEVELS_003):
        start, end = site.number(f), site.number(t)
        misclosure = whole(Fraction(up) - (site.heights[t] - site.heights[f]), site.units[2])
        provisional = stations[end - 1][3] - stations[start - 1][3]
        records.append(survey.Level(start, end, provisional + misclosure, level_weight(deviation, site.units[2], site.factor)))
    return stations, dict(enumerate(records + constraints_003(site), 1))


def exact_sheet(stations, records):
    """The corrections and the sheet's words of the exact answer: corrections, variances, residuals and T rounded to nearest, verdicts by the rounded pair."""
    net = survey.Network(survey.Station(*row) for row in stations)
    d, y, z = solve.exact(*survey.normals(net, records))
    x, m = solve.round_off(d, y, z)
    words = survey.sheet(net, records, x, m)
    at = 2 + 7 * len(stations)
    for _, r in sorted(records.items()):
        for k, c in enumerate(r.components, 1):
            words[at + k] = solve.nearest(survey.residual(net, r, y, c, d), d)
        at += 1 + 2 * len(r.components)
    words[at] = solve.nearest(survey.square_sum(net, records, y, d), d * d)
    return x, words


SURVEYS = {'baselines_document_002': baselines_002, 'baselines_document_002_one_held': lambda: baselines_002(held='A'), 'baselines_document_003': baselines_003,
           'levelling_document_003': levels_003, 'positions_document_003': positions_003}
LETTERS = {survey.Baseline: 'B', survey.Level: 'H', survey.Position: 'P'}


def text(stations, records):
    lines = ['S %d %s %d %d %d' % (k, ' KFV'[row[0]], *row[1:]) for k, row in enumerate(stations, 1)]
    for place, r in records.items():
        numbers = (r.up, r.single) if isinstance(r, survey.Level) else (*r.observed, *r.weights)
        lines.append(' '.join(map(str, (LETTERS[type(r)], place, *(s for s, _ in r.ends), *numbers))))
    return '\n'.join(lines) + '\n'


if __name__ == '__main__':
    sys.stdout.write(text(*SURVEYS[sys.argv[1]]()))
