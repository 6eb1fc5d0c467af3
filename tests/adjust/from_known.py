"""Positions as baselines: a position at a station, and a baseline to it from one more known station, with the differences from there and the same weights, have the same misclosures,
and the same shares of N, u, T and D. So an input prints the same with the one as with the other, but for the line of that station."""
from dataclasses import replace
import re

import inputs
import lines
import survey

MOST_STATIONS = 32


def station_list(rows):
    """(how many lines the list of stations has, unreadable ones too; how many stations it has)"""
    run = lines.Run(None)
    for k, row in enumerate(rows):
        if row.split(b' ', 1)[0] != b'S':
            return k, len(run.rows)
        try:
            run.apply(row)
        except lines.Unreadable:
            pass
    return len(rows), len(run.rows)


class Baselines:
    """The text with a known station at these coordinates at the end of its list, and baselines from there for its positions; `text` is None where the list is full."""

    def __init__(self, data, mark):
        rows = lines.split(data)
        self.head, stations = station_list(rows)
        self.mark, self.number = mark, stations + 1
        self.exchanged = 0           # positions
        rows[self.head:] = [inputs.station_line(self.number, (survey.KNOWN, *mark)), *map(self.line, rows[self.head:])]
        self.text = b'\n'.join(rows) + (b'\n' if data.endswith(b'\n') else b'') if stations < MOST_STATIONS else None

    def line(self, line):
        """A line behind the list; it stays where it is unreadable, has a coordinate out of range, or is of no position."""
        before, fields = (b'R ', line[2:].split(b' ')) if line[:2] == b'R ' else (b'', line.split(b' '))
        if len(line) > inputs.LINE or fields[0] not in lines.ENTERS:
            return line
        try:
            place, r = lines.record(fields[0], fields[1:])
        except lines.Unreadable:
            return line
        other = self.record(r)
        return line if other == r else before + inputs.record_line(place, other)

    def record(self, r):
        """A station with the new number is not in the list of the text: it gets another that is not."""
        names = [name for name in ('start', 'end', 'station') if getattr(r, name, None) == self.number]
        r = replace(r, **dict.fromkeys(names, self.number + 1))
        if not isinstance(r, survey.Position) or not survey.within(survey.MOST_COORDINATE, r.observed):
            return r
        self.exchanged += 1
        return survey.Baseline(self.number, r.station, tuple(v - m for v, m in zip(r.observed, self.mark)), r.weights)

    def printed(self, output):
        """What is printed, without the line of the new station, and with the numbers that the lines behind its S line had before."""
        def counted(found):
            k = int(found.group(1))
            return b'LINE %d ' % (k - (k > self.head + 1))
        rows = re.sub(rb'(?m)^LINE (\d+) ', counted, output).split(b'\n')
        at = next((k + self.number for k, row in enumerate(rows) if row.startswith(b'SHEET ')), len(rows))
        if rows[at:at + 1] == [b'%d %d %d %d 0 0 0' % (self.number, *self.mark)]:
            del rows[at]
        return b'\n'.join(rows)
