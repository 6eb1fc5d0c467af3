"""bin/adjust: files by name from any folder, clear words where there is nothing to read, warnings and advice on standard error, and the program's output and
status passed on. Each test gives what is wrong, or None."""
import contextlib
import os
import shutil
import signal
import subprocess
import tempfile

import inputs
from program import LIMIT, ROOT, WRAPPER, built

DATA = b'S 1 K 0 0 100000\nS 2 V 0 0 101000\nU\nH 1 1 2 1000 100\nX 0\nM 10737418\n'
WANT = b'LINE 3 REFUSED 8\nSHEET 1 RECORDS 1 UNKNOWNS\n1 0 0 100000 0 0 0\n2 0 0 101000 0 0 10737418\n1 0 LOOSE\nGLOBAL 0 0 NONE\n'
ANY = None          # an error text that the shell may word as it likes


def called(arguments, data=b'', folder=ROOT, path=WRAPPER, environment=None):
    done = subprocess.run([path, *arguments], input=data, stdout=subprocess.PIPE, stderr=subprocess.PIPE, timeout=LIMIT * 20, cwd=folder, env=environment)
    return done.returncode, done.stdout, done.stderr


def shown(answer):
    return 'status %d, printed %r, error text %r' % answer


def write_script(path, text):
    os.makedirs(os.path.dirname(path), exist_ok=True)
    with open(path, 'w') as script:
        script.write('#!/bin/sh\n' + text)
    os.chmod(path, 0o755)


@contextlib.contextmanager
def tree(program=None):
    """A folder with bin/adjust, a crate `adjust` on two others, and a script as its program; gives the folder and the path of bin/adjust."""
    with tempfile.TemporaryDirectory() as folder:
        os.mkdir(os.path.join(folder, 'bin'))
        path = shutil.copy(WRAPPER, os.path.join(folder, 'bin', 'adjust'))
        with open(os.path.join(folder, 'crates.txt'), 'w') as crates:
            crates.write('one:\ntwo: one\nadjust: one two io\nother: one\n')
        for name in ('one', 'two', 'adjust', 'other'):
            os.makedirs(os.path.join(folder, 'crates', name, 'src'))
            open(os.path.join(folder, 'crates', name, 'src', 'lib.rt'), 'w').close()
        if program is not None:
            write_script(os.path.join(folder, built('adjust')), program)
        yield folder, path


def standard_input():
    status, out, _ = called([], DATA)          # the first call may build, and says so
    return None if (status, out) == (0, WANT) else 'status %d, printed %r' % (status, out)


def names():
    """Names with blanks and other signs, relative and absolute, the command through links."""
    with tempfile.TemporaryDirectory() as folder:
        os.mkdir(os.path.join(folder, 'two words'))
        link, second = os.path.join(folder, 'a link'), os.path.join(folder, 'two words', 'adjust')
        os.symlink(WRAPPER, link)
        os.symlink('../a link', second)
        for name in ('plain.txt', 'night of the 3rd.txt', "it's $HOME *.txt", '-n', 'two words/x'):
            with open(os.path.join(folder, name), 'wb') as file:
                file.write(DATA)
            for given in (name, os.path.join(folder, name)):
                for path in (WRAPPER, link, second):
                    got = called([given], b'', folder, path)
                    if got != (0, WANT, b''):
                        return '%r by %s: %s' % (given, path, shown(got))
    return None


def mistakes():
    """A message on standard error, nothing on standard output, and status 2."""
    with tempfile.TemporaryDirectory() as folder:
        closed = os.path.join(folder, 'closed')
        open(closed, 'w').close()
        os.chmod(closed, 0)
        wrong = [['missing.txt'], [r'back\slash'], [folder], [''], ['missing.txt', 'second.txt']]
        if not os.access(closed, os.R_OK):         # the superuser reads all files
            wrong.append([closed])
        for arguments in wrong:
            status, out, errors = called(arguments, DATA, folder)
            if status != 2 or out or not errors.startswith(b'adjust: ') or errors.count(b'\n') != 1 or (len(arguments) == 1 and arguments[0].encode() not in errors):
                return '%r: %s' % (arguments, shown((status, out, errors)))
    return None


def help_text():
    """The help names the statuses, and says which input is looked at for carriage returns."""
    for word in ('-h', '--help'):
        status, out, errors = called([word], DATA)
        if status or errors or not out.startswith(b'usage: adjust [FILE]\n') or not all(part in out for part in (b'Exit status: 0', b'carriage return', b'regular file', b'NO PROPOSAL')):
            return shown((status, out, errors))
    return None


def without_toolchain():
    """Where nothing is built and there is no `rt`: one line that says so."""
    with tree() as (folder, path):
        tools = os.path.join(folder, 'tools')
        os.mkdir(tools)
        for tool in ('sh', 'readlink', 'dirname', 'awk', 'find', 'mkdir', 'touch', 'date', 'wc', 'sleep', 'setsid', 'grep', 'tee', 'tail'):
            found = shutil.which(tool)
            if found:
                os.symlink(found, os.path.join(tools, tool))
        got = called([], DATA, folder, path, {'PATH': tools})
        if got[0] != 1 or got[1] or b'(rt)' not in got[2] or got[2].count(b'\n') != 1:
            return shown(got)
        # the tools above are all that it uses: with a program it runs
        write_script(os.path.join(folder, built('adjust')), 'echo REFUSED 1\n')
        got = called([], DATA, folder, path, {'PATH': tools})
    return None if got == (0, b'REFUSED 1\n', b'') else shown(got)


def carriage_returns():
    """One line on standard error with the number of lines that end in CR, for a regular file alone; the command that it names takes them out."""
    mixed = DATA.replace(b'\nH', b'\r\nH').replace(b'0 100000', b'0\r 100000')        # line 3 ends in CR; line 1 has one within
    cases = [(DATA, 0), (DATA.replace(b'\n', b'\r\n'), 6), (mixed, 1), (DATA[:-1] + b'\r', 1), (b'\r\n' * 1000, 1000), (b'', 0), (b'\x00\r\n', 1)]
    for data, count in cases:
        with tempfile.NamedTemporaryFile() as file:
            file.write(data)
            file.flush()
            piped = called([], data)
            with open(file.name, 'rb') as stream:
                done = subprocess.run([WRAPPER], stdin=stream, stdout=subprocess.PIPE, stderr=subprocess.PIPE, timeout=LIMIT)
            for got in (called([file.name]), (done.returncode, done.stdout, done.stderr)):
                if got[:2] != piped[:2] or piped[2]:
                    return '%r: %s; by a pipe %s' % (data[:100], shown(got), shown(piped))
                warned = got[2].count(b'\n') == 1 and b'unreadable: %d. ' % count in got[2] and b"tr -d '\\r' < FILE | bin/adjust\n" in got[2]
                if (count and not warned) or (not count and got[2]):
                    return '%r: %s' % (data[:100], shown(got))
    with tempfile.NamedTemporaryFile() as file:
        file.write(cases[1][0])
        file.flush()
        command = got_command(called([file.name])[2])
        out = subprocess.run(['sh', '-c', command.replace('FILE', '"$1"'), 'sh', file.name], stdout=subprocess.PIPE, cwd=ROOT, timeout=LIMIT).stdout
    return None if out == WANT else 'the command %r gives %r' % (command, out)


def got_command(errors):
    return errors.decode().strip().split('takes the CRs out: ')[1]


def advice():
    """After NO PROPOSAL, and after nothing else, standard error says what to try; what it says to try works."""
    with open(os.path.join(ROOT, 'examples', 'no_proposal.txt'), 'rb') as file:
        data = file.read()
    status, out, errors = called([], data)
    if (status, out) != (0, b'NO PROPOSAL\n') or b'X of n zeros' not in errors or not all(line.startswith(b'adjust: ') for line in errors.splitlines()):
        return shown((status, out, errors))
    weak = inputs.levelling_line(17)
    for text, n, answer in ((data, 3, b'REFUSED 11 1\n'), (inputs.HEAD, 1, b'REFUSED 11 1\n'), (weak, 17, b'REFUSED 14\n')):
        zeros = inputs.joined(b'X', *[0] * n) + b'\n' + inputs.joined(b'M', *[0] * (n * n)) + b'\n'
        if called([], text)[1] != b'NO PROPOSAL\n' or called([], text + zeros) != (0, answer, b'') or answer.split(b' ')[1].strip() not in errors:
            return 'with zeros %s' % shown(called([], text + zeros))
    return None


def statuses():
    """The program's status is kept; 2 where it ended without a last word, as after a failed read."""
    for program, want in (('echo REFUSED 1; exit 7', (7, b'REFUSED 1\n', b'')), ('echo LINE 1 UNREADABLE; exit 7', (7, b'LINE 1 UNREADABLE\n', b'')),
                          ('echo NO; kill -s KILL $$', (128 + signal.SIGKILL, b'NO\n', ANY)), ('echo GLOBAL 0 0 NONE', (0, b'GLOBAL 0 0 NONE\n', b'')),
                          ('echo LINE 1 REFUSED 8; echo word >&2', (2, b'LINE 1 REFUSED 8\n', b'word\n')), ('cat > /dev/null', (2, b'', b'')),
                          ('echo REFUSED 11 3; cat', (2, b'REFUSED 11 3\n' + DATA, b'')), ('printf "REFUSED 1"', (0, b'REFUSED 1', b''))):
        with tree(program + '\n') as (folder, path):
            got = called([], DATA, folder, path)
        if got[:2] != want[:2] or want[2] not in (got[2], ANY):
            return '%s: %s' % (program, shown(got))
    return None


def full_disk():
    """An output that takes nothing: a message, and status 2."""
    with open('/dev/full', 'wb') as output:
        done = subprocess.run([WRAPPER], input=DATA, stdout=output, stderr=subprocess.PIPE, timeout=LIMIT)
    return None if done.returncode == 2 and b'No space left' in done.stderr else 'status %d, error text %r' % (done.returncode, done.stderr)


def closed_input():
    """No standard input at all: a message, and status 2; a file is read all the same."""
    for line, want in (('"$0" <&-', (2, b'', b'adjust: standard input is closed\n')), ('printf "S 1 K 0 0 0\n" > "$1"; "$0" "$1" <&-', (0, b'REFUSED 1\n', b''))):
        with tempfile.NamedTemporaryFile() as file:
            done = subprocess.run(['sh', '-c', line, WRAPPER, file.name], stdout=subprocess.PIPE, stderr=subprocess.PIPE, timeout=LIMIT)
        if (done.returncode, done.stdout, done.stderr) != want:
            return '%s: %s' % (line, shown((done.returncode, done.stdout, done.stderr)))
    return None


def interrupted_run():
    """A Ctrl-C while lines are typed: bin/adjust and all that it started end."""
    process = subprocess.Popen([WRAPPER], stdin=subprocess.PIPE, stdout=subprocess.PIPE, stderr=subprocess.PIPE, bufsize=0, start_new_session=True)
    process.stdin.write(inputs.HEAD + b'Q\n')
    first = process.stdout.readline()
    os.killpg(process.pid, signal.SIGINT)
    rest, errors = process.communicate(timeout=LIMIT)           # comes to its end when the last of them has closed its output
    if (process.returncode, first, rest, errors) != (-signal.SIGINT, b'LINE 3 UNREADABLE\n', b'', b''):
        return shown((process.returncode, first + rest, errors))
    return None


def appended():
    """An output file that is appended to keeps what it had."""
    with tempfile.NamedTemporaryFile() as file:
        file.write(b'before\n')
        file.flush()
        with open(file.name, 'ab') as output:
            subprocess.run([WRAPPER], input=DATA, stdout=output, timeout=LIMIT)
        file.seek(0)
        got = file.read()
    return None if got == b'before\n' + WANT else 'the file has %r' % got


def most_memory(count):
    """The most memory, in KiB, that a process of a run has that prints this many messages."""
    with tempfile.TemporaryFile() as data:
        data.write(inputs.HEAD + b'Q\n' * count)
        data.seek(0)
        process = subprocess.Popen([WRAPPER], stdin=data, stdout=subprocess.DEVNULL, stderr=subprocess.DEVNULL)
        _, status, used = os.wait4(process.pid, 0)
        process.returncode = os.waitstatus_to_exitcode(status)
    return used.ru_maxrss if process.returncode == 0 else None


def memory():
    """7 MB of output take no more memory than a little."""
    few, many = most_memory(1), most_memory(300_000)
    return None if few and many and many <= few + 1024 else 'the most memory grows from %s to %s KiB' % (few, many)


TESTS = [standard_input, names, mistakes, help_text, without_toolchain, carriage_returns, advice, statuses, full_disk, closed_input, interrupted_run, appended, memory]
