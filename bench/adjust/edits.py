"""Edit lines for the network of examples/full_size_network.txt, all of them accepted: baselines, height differences and positions entered over the records at their places, with R
before them, which changes nothing; strikes with the place filled again; undos.

    edits.py COUNT
"""
import random
import sys

rng = random.Random(5)
with open('examples/full_size_network.txt') as source:
    lines = [line.rstrip('\n') for line in source]
stations = {number: coordinates for _, number, _, *coordinates in (line.split(' ') for line in lines if line[0] == 'S')}
records = [line for line in lines if line[0] in 'BHP']


def moved(number):
    """By less than a millimetre."""
    return str(int(number) + rng.randint(-99, 99))


def entered(line):
    """What is entered at the record's place: the record with a value moved, or, one time in eight, a position of its first station."""
    fields = line.split(' ')
    if rng.random() < 0.125:
        return ' '.join(['P', *fields[1:3], *map(moved, stations[fields[2]]), '100 3 -2 120 1 90'])
    fields[4] = moved(fields[4])
    return ' '.join(fields)


left = int(sys.argv[1])
out = []
while left > 0:
    line = rng.choice(records)
    kind = rng.random()
    if kind < 0.6 or left == 1:
        made = ['R ' + entered(line)]
    elif kind < 0.8:
        made = ['D ' + line.split(' ')[1], entered(line)]
    else:
        made = ['R ' + entered(line), 'U']
    out += made
    left -= len(made)
sys.stdout.write('\n'.join(out) + '\n')
