"""Random antenna heights of a baseline, for the tests of request 4: by the rules, and such as bring the U difference to a limit."""
import survey

MOST = survey.MOST_HEIGHT_ABOVE_MARK
NEAR = (-1, 0, 1, MOST - 1, MOST, MOST + 1)             # both sides of the limits of a height


def heights(rng):
    """Two by the rules: often none, some at a limit."""
    if rng.random() < 0.4:
        return 0, 0
    return tuple(rng.choice((0, 1, MOST - 1, MOST)) if rng.random() < 0.3 else rng.randint(0, MOST) for _ in range(2))


def leading(rng, observed, reduced):
    """Two by the rules that lead from the observed U difference to the reduced one; the two are at most MOST apart."""
    rise = reduced - observed
    room = MOST - abs(rise)
    low = rng.choice((0, room, rng.randint(0, room)))
    return (low + rise, low) if rise >= 0 else (low, low - rise)


def beside(rng, limit):
    """(observed U difference, heights): the reduced one is at the limit or one from it; so is the observed one, or it is anywhere from which heights lead there."""
    reduced = limit + rng.choice((-1, 0, 1))
    observed = rng.choice((limit - 1, limit, limit + 1, reduced + rng.randint(-MOST, MOST)))
    return observed, leading(rng, observed, reduced)
