"""An exact solver: the least squares answer and the inverse of N as fractions, by elimination in whole numbers (Bareiss)."""


def exact(matrix, right):
    """(d, y, z): d > 0 and whole y, z with N y = d u and N z = d I; None where N is singular."""
    n = len(matrix)
    rows = [list(matrix[i]) + [right[i]] + [1 if i == j else 0 for j in range(n)] for i in range(n)]
    width = 2 * n + 1
    previous = 1
    for k in range(n):
        pivot = next((i for i in range(k, n) if rows[i][k]), None)
        if pivot is None:
            return None
        if pivot != k:
            rows[k], rows[pivot] = rows[pivot], [-v for v in rows[k]]
        head = rows[k][k]
        for i in range(n):
            if i == k:
                continue
            factor = rows[i][k]
            row, base = rows[i], rows[k]
            rows[i] = [(head * row[j] - factor * base[j]) // previous for j in range(width)]
        previous = head
    d = previous
    sign = 1 if d > 0 else -1
    y = [sign * rows[i][n] for i in range(n)]
    z = [[sign * v for v in rows[i][n + 1:]] for i in range(n)]
    return abs(d), y, z


def nearest(a, d):
    """a / d rounded to nearest, halves away from zero."""
    return (2 * a + d) // (2 * d) if a >= 0 else -((-2 * a + d) // (2 * d))


def rounded(matrix, right):
    """The exact answer and 2^30 times the exact inverse, rounded: (x, m by rows); None where N is singular."""
    found = exact(matrix, right)
    return None if found is None else round_off(*found)


def round_off(d, y, z):
    """What `exact` gives, as a pair to check."""
    return [nearest(v, d) for v in y], [nearest(2 ** 30 * v, d) for row in z for v in row]
