"""Random positions at the limits that request 5 names, for the tests: of a coordinate, of a misclosure, of a weight, and of what refusal 5 asks of a matrix."""
import survey

PLAIN = (100, 9, -9, 100, 9, 100)
# Weights at a limit of 4 or 5, and such as are beyond it by one; also with their axes exchanged.
WEIGHTS = ((1, 0, 0, 100, 0, 100), (0, 0, 0, 100, 0, 100), (10_000, 0, 0, 100, 0, 100), (10_001, 0, 0, 100, 0, 100),        # on the diagonal
           (10_000, 9_999, 0, 10_000, 0, 10_000), (10_000, 10_000, 0, 10_000, 0, 10_000), (10_000, 10_001, 0, 10_000, 0, 10_000),         # beside it: 5 from 10,000 on, 4 beyond
           (100, 99, 0, 100, 0, 100), (100, 100, 0, 100, 0, 100), (1, 0, 0, 1, 0, 1), (100, -50, -50, 100, -50, 100),       # minors of 1 and 0
           (1, 15, 0, 240, 0, 1), (1, 4, 0, 17, 0, 1))                                                                      # an adjugate of 16 determinants, and 1 more


def exchanged(weights, axes, signs=(1, 1, 1)):
    """The weights with the axes in this order, and turned round where the sign is -1: the diagonals of the matrix and of its adjugate only change their order."""
    matrix = survey.Position(1, (0, 0, 0), weights)
    return tuple(signs[a] * signs[b] * matrix.weight(axes[a], axes[b]) for a, b in ((0, 0), (0, 1), (0, 2), (1, 1), (1, 2), (2, 2)))


def near(rng, net, station, noise=300):
    """Coordinates near the provisional ones, in range."""
    return tuple(max(-survey.MOST_COORDINATE, min(survey.MOST_COORDINATE, net.at(station).coordinate(c) + rng.randint(-noise, noise))) for c in range(3))


def beside(rng, net, station):
    """A position at the station with one value at a limit or one from it, or with the weights of one. A coordinate is at its limit where the station is near it."""
    observed, weights = list(near(rng, net, station)), PLAIN
    c, off = rng.randrange(3), rng.choice((-1, 0, 1))
    kind = rng.choice(('coordinate', 'misclosure', 'weights'))
    if kind == 'coordinate':
        observed[c] = (1 if observed[c] > 0 else -1) * (survey.MOST_COORDINATE + off)
    elif kind == 'misclosure':
        observed[c] = net.at(station).coordinate(c) + rng.choice((-1, 1)) * (survey.MOST_MISCLOSURE + off)
    else:
        weights = exchanged(rng.choice(WEIGHTS), rng.sample(range(3), 3), [rng.choice((-1, 1)) for _ in range(3)])
    return survey.Position(station, tuple(observed), weights)
