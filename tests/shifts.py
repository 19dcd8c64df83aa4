#!/usr/bin/env python3
"""shifts.py COMMAND [ROUNDS] [SEED]: kills the program `shift` at work, hands it bad files and a full disk, and holds it to one rule: the file has the old record or the new one, byte for byte.

COMMAND runs `shift`, FILE and words are put after it; it has to be the program's own process, as `dives/run shift` is (with RATTLE_HOME set to the kit's folder it starts at once), so that a kill meets it. FOLDER in the environment is where the files are made (by default the temporary folder).
  kills    ROUNDS times (by default 300) as soon as the temporary file is there, and as many times at a random moment
  files    missing, empty, cut at every length, damaged at every part, and a filter that can't be saved at the end: the file stays, the number is told, and where there is no record to start from no call is answered
  disk     a small file system that is full, where one can be mounted, else a limit on the length of files
Prints figures, and ends with 1 where something is not as it should be.
"""
import os
import random
import resource
import shlex
import shutil
import signal
import struct
import subprocess
import sys
import tempfile
import time

TOP = os.path.dirname(os.path.dirname(os.path.abspath(__file__)))
FAILED = []


def script(name):
    with open(os.path.join(TOP, 'dives', name), 'rb') as source:
        return source.read()


def f64(*numbers):
    return struct.pack('<%dd' % len(numbers), *numbers)


# what the two worked shifts leave, by the numbers in their comments
OLD = b'WP\1' + f64(2.25, 4, 1, 1, 0, 0) + b'\1' + f64(180)
NEW = b'WP\1' + f64(3.6875, 4, 1, 1, 0, 0) + b'\1' + f64(180)
NAN, INF = float('nan'), float('inf')


def expect(what, holds, *seen):
    if not holds:
        FAILED.append(what)
        print('NOT SO: %s' % what, *seen)


def put(path, data):
    with open(path, 'wb') as out:
        out.write(data)


def get(path):
    with open(path, 'rb') as source:
        return source.read()


def run(command, path, text, *words, **options):
    return subprocess.run(command + [path, *words], input=text, stdout=subprocess.PIPE, stderr=subprocess.PIPE, **options)


def worked(command, folder):
    """The two worked shifts come to the records that the kills are held to."""
    path = os.path.join(folder, 'box')
    done = run(command, path, script('shift-1.script'), 'first')
    expect('the first shift writes its record', get(path) == OLD and b'the record is written' in done.stderr, done.stderr)
    done = run(command, path, script('shift-2.script'))
    expect('the next shift writes its record', get(path) == NEW and b'the record is written' in done.stderr, done.stderr)
    done = run(command, path, script('shift-1.script'), 'first')
    expect('a first shift leaves a file that is there', get(path) == NEW and not done.stdout and b'there already' in done.stderr, done.stderr)
    expect('nothing is left beside the file', os.listdir(folder) == ['box'], os.listdir(folder))
    os.unlink(path)


def started(command, path):
    """A shift at work, with the script to read from a file, so that nothing waits for it."""
    with open(os.path.join(TOP, 'dives', 'shift-2.script'), 'rb') as text:
        return subprocess.Popen(command + [path], stdin=text, stdout=subprocess.DEVNULL, stderr=subprocess.DEVNULL)


def kill_at_temporary(process, folder):
    """Waits for a second file in the folder."""
    while len(os.listdir(folder)) < 2 and process.poll() is None:
        pass
    process.send_signal(signal.SIGKILL)


def kills(command, folder, rounds, rng, wait):
    """How many kills met the program, left the old record, the new one, and a temporary file beside it."""
    met = old = new = left = 0
    path = os.path.join(folder, 'box')
    for _ in range(rounds):
        put(path, OLD)
        process = started(command, path)
        wait(process, folder, rng)
        met += process.wait() == -signal.SIGKILL
        found = get(path)
        old += found == OLD
        new += found == NEW
        expect('the record is whole after a kill', found in (OLD, NEW), found.hex())
        names = [name for name in os.listdir(folder) if name != 'box']
        left += bool(names)
        expect('only files beside the record are left', all(name.startswith('box.') for name in names), names)
        for name in names:
            os.unlink(os.path.join(folder, name))
    return met, old, new, left


def all_kills(command, folder, rounds, rng):
    path = os.path.join(folder, 'box')
    put(path, OLD)
    began = time.perf_counter()
    started(command, path).wait()
    took = time.perf_counter() - began

    def at_temporary(process, folder, rng):
        kill_at_temporary(process, folder)

    def at_random(process, folder, rng):
        time.sleep(rng.random() * took * 1.2)
        process.send_signal(signal.SIGKILL)

    for name, wait in (('as the temporary file appears', at_temporary), ('at a random moment', at_random)):
        met, old, new, left = kills(command, folder, rounds, rng, wait)
        print('kills %s: %d, of which %d met the program; %d left the old record, %d the new one, %d another; %d left a temporary file beside it' % (name, rounds, met, old, new, rounds - old - new, left))
    done = run(command, path, b'')
    expect('the record is read after all that', not done.returncode and b'the record is written' in done.stderr, done.stderr)


def part(at, data):
    """The old record with other bytes from a place on."""
    return OLD[:at] + data + OLD[at + len(data):]


# a file, and how it is refused: number, words and place (document 02, A8)
BAD = [(OLD[:k], '2 SHORT', 0) for k in range(60)] + [
    (b'XP' + OLD[2:], '12 RECORD', 0), (b'WQ' + OLD[2:], '12 RECORD', 0), (part(2, b'\0'), '1 SIZE', 0), (part(2, b'\x09'), '1 SIZE', 0), (b'\0\0\x09', '1 SIZE', 0), (part(2, b'\2'), '2 SHORT', 0),
    (part(51, b'\2'), '12 RECORD', 0), (part(51, b'\0'), '12 RECORD', 0), (part(51, b'\0' + f64(-0.0)), '12 RECORD', 0), (b'XP' + part(3, f64(NAN))[2:], '12 RECORD', 0),
    (part(3, f64(NAN)), '51 NUMBER', 0), (part(11, f64(INF)), '52 NUMBER', 0), (part(19, f64(-INF)), '53 NUMBER', 0), (part(27, f64(NAN)), '56 NUMBER', 0), (part(35, f64(NAN)), '56 NUMBER', 1),
    (part(43, f64(INF)), '56 NUMBER', 2), (part(52, f64(NAN)), '56 NUMBER', 0), (part(52, f64(0)), '6 PARAM', 0), (part(27, f64(0)), '6 PARAM', 0),
]
# scripts that leave a filter that can't be saved
UNSAVED = [(b'openp 3\n', '3 STAGE'), (b'openp 3\nclosep 3 4002000000000000 4011000000000000 3fd0000000000000\n', '11 FRESH'), (b'new 9 0 0 0 0000000000000000 0000000000000000 0000000000000000\n', '1 SIZE'), (b'load -\n', '1 SIZE')]


def files(command, folder):
    path = os.path.join(folder, 'box')
    text = script('shift-2.script')
    done = run(command, path, text)
    expect('a missing file is told', b'error 2: ' in done.stderr and not done.stdout and not os.listdir(folder), done.stderr)
    os.mkdir(path)
    done = run(command, path, text)
    expect('a folder is told', b'error 21: ' in done.stderr and not done.stdout, done.stderr)
    os.rmdir(path)
    for data, told, place in BAD:
        put(path, data)
        done = run(command, path, text)
        said = '%s: %s' % (path, told)
        expect('%s is told' % told, done.stderr.startswith(said.encode()) and (b'(place %d)' % place) in done.stderr, data.hex(), done.stderr)
        expect('a bad file stays, and no call is answered', get(path) == data and not done.stdout and os.listdir(folder) == ['box'], data.hex())
    put(path, OLD)
    for lines, told in UNSAVED:
        done = run(command, path, lines)
        said = '%s: %s' % (path, told)
        expect('%s is told at the end' % told, done.stderr.startswith(said.encode()) and done.stdout, done.stderr)
        expect('the record stays where none can be saved', get(path) == OLD and os.listdir(folder) == ['box'])
    print('bad files: %d, each refused with its number, and no call answered; unsaved ends: %d; the file stayed in each' % (len(BAD) + 2, len(UNSAVED)))


def stayed(done, path, number):
    expect('error %d is told' % number, (b'error %d: ' % number) in done.stderr and b'what was there is as it was' in done.stderr, done.stderr)
    expect('the old record stays', get(path) == OLD)
    expect('no temporary file stays', sorted(os.listdir(os.path.dirname(path)))[0] == 'box' and not [n for n in os.listdir(os.path.dirname(path)) if n.startswith('box.')])


def full(command, folder):
    """Inside a name space of its own: a file system of two pages, one for the record and one for what fills it."""
    subprocess.run(['mount', '-t', 'tmpfs', '-o', 'size=8k', 'tmpfs', folder], check=True)
    path = os.path.join(folder, 'box')
    put(path, OLD)
    put(os.path.join(folder, 'filler'), b'x' * 4096)
    stayed(run(command, path, script('shift-2.script')), path, 28)
    os.unlink(os.path.join(folder, 'filler'))
    done = run(command, path, script('shift-2.script'))
    expect('with room again the record is written', get(path) == NEW, done.stderr)


def limited(command, folder):
    """No file may be longer than 30 bytes, and the signal for that is ignored."""
    def limit():
        signal.signal(signal.SIGXFSZ, signal.SIG_IGN)
        resource.setrlimit(resource.RLIMIT_FSIZE, (30, 30))
    path = os.path.join(folder, 'box')
    put(path, OLD)
    stayed(run(command, path, script('shift-2.script'), preexec_fn=limit), path, 27)


def disk(line, folder):
    inside = [sys.executable, os.path.abspath(__file__), '--full', line, folder]
    mounted = shutil.which('unshare') and subprocess.run(['unshare', '-rm', 'mount', '-t', 'tmpfs', 'tmpfs', folder], stderr=subprocess.DEVNULL).returncode == 0
    if mounted:
        expect('a full disk', subprocess.run(['unshare', '-rm', *inside]).returncode == 0)
        print('full disk: a tmpfs of 8 KiB; error 28 is told, the old record stays')
    limited(shlex.split(line), folder)
    print('files limited to 30 bytes: error 27 is told, the old record stays%s' % ('' if mounted else ' (no file system could be mounted here)'))


def main():
    if sys.argv[1:2] == ['--full']:
        full(shlex.split(sys.argv[2]), sys.argv[3])
        sys.exit(bool(FAILED))
    if len(sys.argv) < 2:
        sys.exit(__doc__)
    line = sys.argv[1]
    rounds = int(sys.argv[2]) if len(sys.argv) > 2 else 300
    rng = random.Random(int(sys.argv[3]) if len(sys.argv) > 3 else 1)
    command = shlex.split(line)
    command[0] = shutil.which(command[0]) or command[0]
    for part_of in (lambda at: worked(command, at), lambda at: all_kills(command, at, rounds, rng), lambda at: files(command, at), lambda at: disk(line, at)):
        with tempfile.TemporaryDirectory(dir=os.environ.get('FOLDER')) as folder:
            part_of(folder)
    print('%d not so' % len(FAILED))
    sys.exit(bool(FAILED))


main()
