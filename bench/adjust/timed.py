"""Times the program on the network alone and on the network with the edits after it; prints edit lines a second, by elapsed time and, for a machine that is not idle, by processor time.
Exit status 0 where the lines a second by processor time reach the budget.

    timed.py PROGRAM NETWORK EDITS BUDGET
"""
import resource
import subprocess
import sys
import time


def processor_time():
    used = resource.getrusage(resource.RUSAGE_CHILDREN)
    return used.ru_utime + used.ru_stime


def best(program, data):
    """The least elapsed and the least processor time of twelve runs, and what was printed."""
    elapsed, used = [], []
    for _ in range(12):
        start, before = time.perf_counter(), processor_time()
        done = subprocess.run([program], input=data, stdout=subprocess.PIPE, check=True)
        elapsed.append(time.perf_counter() - start)
        used.append(processor_time() - before)
    return min(elapsed), min(used), done.stdout


program, network, edits, budget = sys.argv[1:]
with open(network, 'rb') as a, open(edits, 'rb') as b:
    head, tail = a.read(), b.read()
alone, whole = best(program, head), best(program, head + tail)
if b'REFUSED' in whole[2] or b'UNREADABLE' in whole[2]:
    sys.exit('an edit was not accepted')
count = tail.count(b'\n')
for name, k in (('elapsed', 0), ('processor', 1)):
    seconds = whole[k] - alone[k]
    print('%d edit lines on a full book, %s time: %.0f lines a second (budget %s), %.2f microseconds each' % (count, name, count / seconds, budget, seconds / count * 1e6))
sys.exit(count / seconds < float(budget))
