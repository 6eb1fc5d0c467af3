"""How the program reads and writes: line by line, in any pieces, in little memory and a small stack, with its output closed, and with an input that fails. Each test
gives what is wrong, or None. Those of BOTH take the command: they hold of the program and of bin/adjust alike."""
import ctypes
import mmap
import os
import random
import resource
import select
import subprocess
import threading
import time

import inputs
import lines
from program import Expected, LIMIT, PROGRAM, WRAPPER

HEAD = inputs.HEAD
RECORD = b'H 1 1 2 1000 100\n'
SHEET = b'SHEET 1 RECORDS 1 UNKNOWNS\n1 0 0 100000 0 0 0\n2 0 0 101000 0 0 10737418\n1 0 LOOSE\nGLOBAL 0 0 NONE\n'       # of HEAD and RECORD
READ_ERROR = b'adjust: the input could not be read to its end; nothing after this point was applied, and no sheet is printed\n'


def started(command=PROGRAM):
    return subprocess.Popen([command], stdin=subprocess.PIPE, stdout=subprocess.PIPE, stderr=subprocess.PIPE, bufsize=0)


def read_for(pipe, seconds):
    """What comes within the time; empty where nothing does."""
    ready, _, _ = select.select([pipe], [], [], seconds)
    return os.read(pipe.fileno(), 65536) if ready else b''


def ended(process):
    """Closes the input and gives the rest of the output, and what is wrong with the end."""
    process.stdin.close()
    rest, errors = process.stdout.read(), process.stderr.read()
    status = process.wait(LIMIT)
    process.stdout.close()
    process.stderr.close()
    return rest, None if (status, errors) == (0, b'') else 'status %d, error text %r' % (status, errors)


def typed(command):
    """Each message is read before the next line is typed."""
    process = started(command)
    process.stdin.write(HEAD)
    wrong = None
    typed_lines = [(b'P 1 3 0 0 101000 1 0 0 1 0 1', b'REFUSED 3'), (b'Q', b'UNREADABLE'),
                   (b'U', b'REFUSED 8'), (b'D 1', b'REFUSED 7'), (b'H 0 1 2 1000 100', b'REFUSED 2'), (b'H 1 1 2 201001 100', b'REFUSED 6'), (b'', b'UNREADABLE')]
    for k in range(3, 33):
        line, answer = typed_lines[k % len(typed_lines)]
        time.sleep(0.005)
        process.stdin.write(line + b'\n')
        got = read_for(process.stdout, 10)
        if got != b'LINE %d %s\n' % (k, answer):
            wrong = 'after line %d came %r' % (k, got)
            break
    process.stdin.write(RECORD)
    rest, bad = ended(process)
    return bad or wrong or (None if rest == SHEET else 'at the end %r' % rest)


def typed_by_bytes(command):
    """A line that comes byte by byte is answered at its end, and not before."""
    process = started(command)
    process.stdin.write(HEAD)
    wrong = None
    for b in b'H 1 1 2 x 100':
        process.stdin.write(bytes([b]))
        if read_for(process.stdout, 0.002):
            wrong = 'an answer before the line ended'
    process.stdin.write(b'\n')
    if read_for(process.stdout, 10) != b'LINE 3 UNREADABLE\n':
        wrong = 'no answer at the end of the line'
    process.stdin.write(RECORD)
    rest, bad = ended(process)
    return bad or wrong or (None if rest == SHEET else 'at the end %r' % rest)


def opening_refused(command):
    """A refused opening ends the run while the input is still open."""
    process = started(command)
    process.stdin.write(b'S 1 K 0 0 0\nU\n')
    got = read_for(process.stdout, 10)
    wrong = None if got == b'REFUSED 1\n' else 'the answer is %r' % got
    try:
        for _ in range(100):
            process.stdin.write(b'U\n' * 1000)
    except BrokenPipeError:
        pass
    rest, bad = ended_after_close(process)
    return bad or wrong or (None if rest == b'' else 'afterwards came %r' % rest[:100])


def ended_after_close(process):
    try:
        return ended(process)
    except BrokenPipeError:
        return b'', None


def pieces(seed, data):
    """The input written in pieces cut at random places: what is wrong, and what the program printed."""
    rng = random.Random(seed)
    process = started()
    got = []
    reader = threading.Thread(target=lambda: got.append(process.stdout.read()))
    reader.start()
    cuts = sorted(rng.randrange(len(data) + 1) for _ in range(min(len(data), 12)))
    for start, end in zip([0] + cuts, cuts + [len(data)]):
        try:
            process.stdin.write(data[start:end])
        except BrokenPipeError:         # a refused opening ends the run
            break
        time.sleep(0.0005)
    try:
        process.stdin.close()
    except BrokenPipeError:
        pass
    reader.join(LIMIT)
    errors = process.stderr.read()
    status = process.wait(LIMIT)
    process.stdout.close()
    process.stderr.close()
    if (status, errors) != (0, b''):
        return 'status %d, error text %r' % (status, errors), got[0]
    return Expected(data).difference(got[0]), got[0]


def closed_output(command):
    """A reader that goes away after the first line, as `adjust | head -1`: the program ends soon and without a word, and bin/adjust with it. The toolchain's programs ignore SIGPIPE, so that
    the write fails, and the program ends as after any write that fails; bin/adjust tells by 2."""
    process = started(command)
    wrong = None
    process.stdin.write(HEAD + b'Q\n')
    first = read_for(process.stdout, 10)
    process.stdout.close()
    try:
        for _ in range(200):
            process.stdin.write(b'Q\n' * 5000)
        wrong = 'all of the input was read'
    except BrokenPipeError:
        pass
    errors = process.stderr.read()                  # comes to its end while the input is still open
    status = process.wait(LIMIT)
    try:
        process.stdin.close()
    except BrokenPipeError:
        pass
    process.stderr.close()
    if first != b'LINE 3 UNREADABLE\n':
        wrong = 'the first line is %r' % first
    return 'status %d, error text %r' % (status, errors) if errors or status != (0 if command == PROGRAM else 2) else wrong


def head_of_output(command):
    """The same by the shell."""
    done = subprocess.run(['sh', '-c', '"$0" | head -n 1', command], input=HEAD + b'Q\n' * 200_000, stdout=subprocess.PIPE, stderr=subprocess.PIPE, timeout=LIMIT)
    return None if (done.stdout, done.stderr) == (b'LINE 3 UNREADABLE\n', b'') else 'printed %r, error text %r' % (done.stdout[:100], done.stderr)


def full_disk():
    """An output that takes nothing: the program ends without a word."""
    with open('/dev/full', 'wb') as output:
        done = subprocess.run([PROGRAM], input=HEAD + b'Q\n' * 100_000, stdout=output, stderr=subprocess.PIPE, timeout=LIMIT)
    return 'error text %r' % done.stderr if done.stderr else None


def small_stack():
    """A stack of 512 KiB is enough, at full size, with an X and M and with the engine's."""
    def limit():
        resource.setrlimit(resource.RLIMIT_STACK, (2 ** 19, 2 ** 19))
    text = inputs.full_size(random.Random(7))
    text = [line for line in text if line[:1] not in (b'X', b'M')]
    x, m = inputs.rounded_pair(text)
    for data in (b'\n'.join(text), b'\n'.join(text + [inputs.joined(b'X', *x), inputs.joined(b'M', *m)])):
        done = subprocess.run([PROGRAM], input=data, stdout=subprocess.PIPE, stderr=subprocess.PIPE, timeout=LIMIT, preexec_fn=limit)
        if done.returncode or done.stderr:
            return 'status %d, error text %r' % (done.returncode, done.stderr)
        wrong = Expected(data).difference(done.stdout)
        if wrong:
            return wrong
    return None


def peak(data, count):
    """The most memory, in KiB, that the program has had when it has answered this many lines of the data."""
    process = started()
    seen = [0]
    done = threading.Event()

    def drain():
        while True:
            got = os.read(process.stdout.fileno(), 1 << 16)
            if not got:
                return
            seen[0] += got.count(b'\n')
            if seen[0] >= count:
                done.set()
    reader = threading.Thread(target=drain)
    reader.start()
    process.stdin.write(HEAD)
    for start in range(0, len(data), 1 << 20):
        process.stdin.write(data[start:start + (1 << 20)])
    done.wait(LIMIT)
    with open('/proc/%d/status' % process.pid) as status:
        most = next(int(line.split()[1]) for line in status if line.startswith('VmHWM'))
    process.stdin.close()
    reader.join(LIMIT)
    process.wait(LIMIT)
    process.stdout.close()
    process.stderr.close()
    return most if done.is_set() else None


def memory():
    """50 MB of refused lines take no more memory than a few."""
    line = b'H 1 1 2 ' + b'0' * 980 + b'201001 100\n'
    few, many = peak(line, 1), peak(line * 50_000, 50_000)
    if few is None or many is None:
        return 'not every line was answered'
    return None if many <= few + 256 else 'the most memory grows from %d to %d KiB' % (few, many)


FAR, LARGEST = 1 << 40, 1 << 30       # an address far from all that Python maps, and more bytes than an input has


def failing_input(data):
    """A descriptor that gives these bytes, and then fails with EIO: this process's own memory at FAR, where nothing else is, from where the bytes stand to a page that
    is not there. It serves until the next call."""
    libc = ctypes.CDLL(None, use_errno=True)
    libc.mmap.restype, libc.mmap.argtypes = ctypes.c_void_p, [ctypes.c_void_p, ctypes.c_size_t] + [ctypes.c_int] * 3 + [ctypes.c_long]
    libc.munmap.argtypes = [ctypes.c_void_p, ctypes.c_size_t]
    libc.munmap(FAR, LARGEST)
    size = -(-len(data) // mmap.PAGESIZE) * mmap.PAGESIZE
    if size and libc.mmap(FAR, size, mmap.PROT_READ | mmap.PROT_WRITE, mmap.MAP_PRIVATE | mmap.MAP_ANONYMOUS, -1, 0) != FAR:
        raise OSError('the address is taken')
    start = FAR + size - len(data)
    ctypes.memmove(start, data, len(data))
    descriptor = os.open('/proc/self/mem', os.O_RDONLY)
    os.lseek(descriptor, start, os.SEEK_SET)
    return descriptor


def answered(command, descriptor):
    done = subprocess.run([command], stdin=descriptor, stdout=subprocess.PIPE, stderr=subprocess.PIPE, timeout=LIMIT)
    os.close(descriptor)
    return done.returncode, done.stdout, done.stderr


def after_read_error(command, messages):
    """What a run with a failed read gives: the messages, nothing else on standard output, and the reason on standard error."""
    return 2 if command == WRAPPER else 0, messages, READ_ERROR


def read_errors(command):
    """An input that cannot be read, or only in part: what its whole lines print, and no sheet, whatever it has."""
    cases = {'no byte': (b'', b''), 'no station yet': (b'S 1', b''), 'stations alone': (HEAD, b''), 'bad stations alone': (b'S 2 K 0 0 0\n', b'LINE 1 UNREADABLE\n'),
             'at the end of a line': (HEAD + b'U\n', b'LINE 3 REFUSED 8\n'), 'within a line': (HEAD + b'Q\nU', b'LINE 3 UNREADABLE\n'),
             'before the last line end': (HEAD + RECORD[:-1], b''), 'a proposal': (HEAD + RECORD, b''), 'a solution': (HEAD + b'U\n' + RECORD + b'X 0\nM 10737418\n', b'LINE 3 REFUSED 8\n'),
             'a refused check': (HEAD + RECORD + b'X 9\nM 0\n', b''), 'many chunks': (HEAD + b'Q\n' * 5000 + RECORD, b''.join(b'LINE %d UNREADABLE\n' % k for k in range(3, 5003)))}
    for name, (data, messages) in cases.items():
        got = answered(command, failing_input(data))
        if got != after_read_error(command, messages):
            return '%s: %r' % (name, got)
    got = answered(command, failing_input(b'S 1 K 0 0 0\nU\n'))        # a refused opening ends the run before the error
    if got != (0, b'REFUSED 1\n', b''):
        return 'a refused opening: %r' % (got,)
    got = answered(command, os.open('/', os.O_RDONLY))
    if got != after_read_error(command, b''):
        return 'a folder: %r' % (got,)
    return None


class Unfinished(lines.Run):
    """The reference on an input whose end is never reached."""

    def __init__(self):
        super().__init__(None)

    def finish(self):
        pass

    def until_error(self, data):
        """What the whole lines of the data print, and whether a refused opening ended the run."""
        whole = lines.split(data[:data.rfind(b'\n') + 1])
        self.run(b'\n'.join(whole) + b'\n' if whole else b'')
        refused = self.ledger is None
        opened = any(line.split(b' ', 1)[0] != b'S' for line in whole)
        return b''.join(self.out[:-1] if refused and not opened else self.out), refused and opened


def cut(seed):
    """A random input that fails at a random place: what is wrong, and what kind of case it was."""
    rng = random.Random(seed)
    data = inputs.made(seed)[1]
    at = rng.choice((rng.randrange(len(data) + 1), data.rfind(b'\n', 0, rng.randrange(len(data) + 1)) + 1, len(data)))
    messages, ended_early = Unfinished().until_error(data[:at])
    want = (0, messages, b'') if ended_early else after_read_error(PROGRAM, messages)
    got = answered(PROGRAM, failing_input(data[:at]))
    kinds = ['a refused opening'] if ended_early else ['messages' if messages else 'no message', 'within a line' if data[:at][-1:] not in (b'', b'\n') else 'between lines']
    if not ended_early and b'SHEET ' in Expected(data[:at]).text:
        kinds.append('a sheet withheld')
    return None if got == want else '%r, not %r' % (got, want), kinds


BOTH = [typed, typed_by_bytes, opening_refused, closed_output, head_of_output, read_errors]
TESTS = [full_disk, small_stack, memory]
