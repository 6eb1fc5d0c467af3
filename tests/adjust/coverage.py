"""What a test has seen, and what it must have seen, so that no kind of input and no message can vanish from it without a failure."""
import collections
import re

NUMBERED = re.compile(rb'^(?:LINE \d+ )?(?:REFUSED \d+|UNREADABLE)')
VERDICTS = {b'PASS', b'FAIL', b'LOOSE'}


def messages(output):
    """The kinds of line in what the program printed: `LINE k REFUSED 8`, `REFUSED 11`, `SHEET`, `LOOSE` (a local verdict), `GLOBAL LOW`."""
    kinds = set()
    for line in output.split(b'\n'):
        found = NUMBERED.match(line)
        if found:
            kinds.add(re.sub(rb'LINE \d+', b'LINE k', found.group()))
        elif line == b'NO PROPOSAL':
            kinds.add(line)
        elif line.startswith(b'SHEET '):
            kinds.add(b'SHEET')
        elif line.startswith(b'GLOBAL '):
            kinds.add(b'GLOBAL ' + line.split(b' ')[-1])
        else:
            kinds |= VERDICTS.intersection(line.split(b' '))
    return {kind.decode() for kind in kinds}


class Seen:
    """In how many inputs each kind was seen."""

    def __init__(self):
        self.counts = collections.Counter()

    def add(self, output, *kinds):
        self.counts.update(messages(output).union(kinds))

    def lacking(self, least):
        """What was seen less often than it must be; None where nothing was."""
        short = ['%s %d times, at least %d are wanted' % (kind, self.counts[kind], count) for kind, count in least.items() if self.counts[kind] < count]
        return '; '.join(short) or None
