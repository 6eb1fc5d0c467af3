"""How bin/adjust builds the program: progress on standard error, interruptions, failures. In most tests a script stands in for `rt`; it prints what `rt run` prints.
Each test gives what is wrong, or None."""
import os
import re
import select
import shutil
import signal
import subprocess
import tempfile
import time

from program import LIMIT, WRAPPER
from wrapper import called, shown, tree, write_script

START = re.compile(rb'adjust: building the program: (\d+) parts, [^\n]*proved before it is compiled[^\n]*minutes[^\n]*\n')
LINE = re.compile(rb'adjust: (\d+) of at most (\d+): (\w+) proved; \d+ min \d+ s so far\n')
PROGRAM_MADE = "mkdir -p crates/adjust/out; printf '#!/bin/sh\\necho REFUSED 1\\n' > crates/adjust/out/adjust; chmod +x crates/adjust/out/adjust\n"
ONE, TWO, ADJUST = ('echo "fn %s::f: proved"; echo "library low: modules loaded=1 checked=0"; echo "crate %s: modules loaded=0 checked=33"; echo "logic=proved functions=1"\n' % (name, name)
                    for name in ('one', 'two', 'adjust'))
WANT = [(b'1', b'3', b'one'), (b'2', b'3', b'two'), (b'3', b'3', b'adjust')]
# a library of one function, and a program over it, both quickly proved
TINY = {'crates.txt': 'one:\nadjust: one io\n',
        'crates/one/src/lib.rt': '// A library.\n#![tactic(auto)]\n\nghost use Rattle.std.specs.Prelude.{◌≡◌};\n\npub fn same(x: u64) -> u64\n    ensures { result ≡ x }\n{\n    x\n}\n',
        'crates/adjust/src/main.rt': '// A program.\n#![tactic(auto)]\n\nfn main() {\n    io::write_all(1, b"REFUSED ");\n    io::print_decimal(1, one::same(1));\n    io::write_all(1, b"\\n");\n}\n'}
# A prover that rt waits for in the background: like all that a shell starts so, it does not hear a Ctrl-C.
HANGS = '(trap "" INT; exec sleep 600) & echo $! > prover; wait\n'


def with_rt(folder, script):
    """The environment in which the script is `rt`; it notes each call, and the folder that it comes from, in the file `calls`, and goes on at the top."""
    write_script(os.path.join(folder, 'tools', 'rt'), 'from=$(basename "$PWD"); cd "$(dirname "$0")/.." || exit 1\necho "$from: $*" >> calls\n' + script)
    return {**os.environ, 'PATH': os.path.join(folder, 'tools') + ':' + os.environ['PATH']}


def started(folder, path, environment):
    return subprocess.Popen([path], stdin=subprocess.DEVNULL, stdout=subprocess.PIPE, stderr=subprocess.PIPE, bufsize=0, env=environment, start_new_session=True)


def read_until(pipe, pattern):
    """What comes up to the first match of the pattern, or in the time that no run takes."""
    got, end = b'', time.time() + LIMIT
    while not pattern.search(got) and time.time() < end and select.select([pipe], [], [], end - time.time())[0]:
        more = os.read(pipe.fileno(), 65536)
        if not more:
            break
        got += more
    return got


def calls_in(folder):
    with open(os.path.join(folder, 'calls')) as file:
        return file.read().splitlines()


def progress():
    """What is built and why it takes long; then a line for each crate, the first of them while rt is still at work; the log has all that rt printed."""
    with tree() as (folder, path):
        waits = 'while [ ! -e go ]; do sleep 0.1; done\n'
        process = started(folder, path, with_rt(folder, ONE + waits + TWO + PROGRAM_MADE + ADJUST))
        errors = read_until(process.stderr, LINE)
        early = LINE.findall(errors)
        open(os.path.join(folder, 'go'), 'w').close()
        out, rest = process.communicate(timeout=LIMIT)
        errors += rest
        start = START.match(errors)
        if (process.returncode, out) != (0, b'REFUSED 1\n') or not start or start.group(1) != b'3' or errors.count(b'\n') != 4:
            return shown((process.returncode, out, errors))
        if early != WANT[:1] or LINE.findall(errors) != WANT:
            return 'lines of progress %r, of them %r while rt was at work' % (LINE.findall(errors), early)
        with open(os.path.join(folder, 'target', 'adjust-build.log'), 'rb') as file:
            log = file.read()
        if calls_in(folder) != ['adjust: run'] or not log.startswith(b'fn one::f: proved\n') or log.count(b'\n') != 12:
            return 'rt was called with %r, and the log has %r' % (calls_in(folder), log)
        again = called([], b'', folder, path, with_rt(folder, 'exit 1\n'))
    return None if again == (0, b'REFUSED 1\n', b'') else 'built, and then %s' % shown(again)


def alive(process_id):
    try:
        os.kill(process_id, 0)
    except ProcessLookupError:
        return False
    with open('/proc/%d/stat' % process_id) as file:
        return file.read().rsplit(')', 1)[1].split()[0] != 'Z'


def interrupted_by(send, status, script):
    """A build that is interrupted while a prover runs: nothing is left running, and the next call builds."""
    with tree() as (folder, path):
        process = started(folder, path, with_rt(folder, script))
        errors = read_until(process.stderr, LINE)
        while not os.path.exists(os.path.join(folder, 'prover')) or not os.path.getsize(os.path.join(folder, 'prover')):
            time.sleep(0.05)
        with open(os.path.join(folder, 'prover')) as file:
            prover = int(file.read())
        before = alive(prover)
        send(process.pid)
        out, rest = process.communicate(timeout=LIMIT)
        end = time.time() + 5
        while alive(prover) and time.time() < end:
            time.sleep(0.05)
        if not before or alive(prover):
            return 'the prover was running before: %s, and after: %s' % (before, alive(prover))
        if process.returncode != status or out or LINE.findall(errors + rest) != WANT[:1] or not rest.endswith(b'next call goes on where it stopped\n'):
            return shown((process.returncode, out, errors + rest))
        status, out, errors = called([], b'', folder, path, with_rt(folder, ONE + TWO + PROGRAM_MADE + ADJUST))
        if (status, out) != (0, b'REFUSED 1\n') or LINE.findall(errors) != WANT or len(calls_in(folder)) != 2:
            return 'the next call: %s' % shown((status, out, errors))
    return None


def interrupted():
    """Ctrl-C, which goes to all processes of the terminal, and a signal to bin/adjust alone; also where a part of the program was there already."""
    cases = [(lambda group: os.killpg(group, signal.SIGINT), 130, ONE + HANGS), (lambda process: os.kill(process, signal.SIGTERM), 143, ONE + HANGS),
             (lambda group: os.killpg(group, signal.SIGINT), 130, ONE + PROGRAM_MADE + HANGS)]
    for send, status, script in cases:
        wrong = interrupted_by(send, status, script)
        if wrong:
            return 'status %d: %s' % (status, wrong)
    return None


def failed():
    """A build that fails: status 1 and where to look, also at the next call: a program that failed its run is not run."""
    for script in (ONE + 'echo "rt: the library two did not build, so nothing above it was checked"; exit 1\n', ONE + PROGRAM_MADE + 'exit 1\n', ONE + TWO + ADJUST):
        with tree() as (folder, path):
            environment = with_rt(folder, script)
            for count in (1, 2):
                status, out, errors = called([], b'', folder, path, environment)
                if status != 1 or out or not errors.endswith(b'target/adjust-build.log\n') or len(calls_in(folder)) != count:
                    return 'call %d: %s' % (count, shown((status, out, errors)))
    return None


def as_rt_prints():
    """The lines of the real rt are those that are looked for: at a first build a line for each crate, after a change of the program alone one for that."""
    with tempfile.TemporaryDirectory() as folder:
        for name, text in TINY.items():
            os.makedirs(os.path.dirname(os.path.join(folder, name)), exist_ok=True)
            with open(os.path.join(folder, name), 'w', encoding='utf-8') as file:
                file.write(text)
        os.mkdir(os.path.join(folder, '.git'))         # the top of a repository
        os.mkdir(os.path.join(folder, 'bin'))
        path = shutil.copy(WRAPPER, os.path.join(folder, 'bin'))
        for want in ([(b'1', b'2', b'one'), (b'2', b'2', b'adjust')], [(b'1', b'2', b'adjust')]):
            status, out, errors = called([], b'', folder, path)
            if (status, out) != (0, b'REFUSED 1\n') or not START.match(errors) or errors.count(b'\n') != 1 + len(want) or LINE.findall(errors) != want:
                return shown((status, out, errors))
            if called([], b'', folder, path) != (0, b'REFUSED 1\n', b''):
                return 'built, and then %s' % shown(called([], b'', folder, path))
            with open(os.path.join(folder, 'crates/adjust/src/main.rt'), 'a', encoding='utf-8') as file:
                file.write('// changed\n')
    return None


TESTS = [progress, interrupted, failed, as_rt_prints]
