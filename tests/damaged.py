#!/usr/bin/env python3
"""damaged.py COMMAND SCRIPT [ROUNDS] [SEED]: damages a script and holds the command that replays it to one answer in form for each call line.

Each round takes a run of the script's lines and flips bytes, cuts, joins, doubles or lengthens lines, puts a side or the f32 filter before them, a stepped call or a record between them, or drops the last newline. The command has to end
with status 0 and write one line for each line that holds a token, comment stripped, or is longer than 16,384 bytes: `bad`, or what begins with a number and its place (docs/SCRIPT.md).
Prints how many rounds and lines that were.
"""
import random
import re
import shlex
import subprocess
import sys

LINE = 16384
BLANKS = b' \t\r'
# Only a bad number and a pivot have a place that isn't 0.
ANSWER = re.compile(rb'bad|((0|1|2|3|4|6|9|10|11|12) 0|(7|8|5[1-6]) (0|[1-9][0-9]*))( [^ ]+)*')


def is_answered(line):
    """Whether a line gets an answer: it is too long, or a byte that is no blank stands before its comment."""
    return len(line) > LINE or any(byte not in BLANKS for byte in line.split(b'#')[0])


def flip(lines, rng):
    i = rng.randrange(len(lines))
    line = bytearray(lines[i])
    for _ in range(rng.randint(1, 4)):
        if line:
            line[rng.randrange(len(line))] ^= 1 << rng.randrange(8)
    lines[i] = bytes(line)


def replace(lines, rng):
    i = rng.randrange(len(lines))
    line = bytearray(lines[i])
    if line:
        line[rng.randrange(len(line))] = rng.choice(b' \t\r#\n\0pt0fF9x@\xff')
    lines[i] = bytes(line)


def cut(lines, rng):
    i = rng.randrange(len(lines))
    at = rng.randint(0, len(lines[i]))
    lines[i:i + 1] = rng.choice([[lines[i][:at]], [lines[i][at:]], [lines[i][:at], lines[i][at:]]])


def join(lines, rng):
    i = rng.randrange(len(lines))
    lines[i:i + 2] = [rng.choice([b'', b' ', b'#']).join(lines[i:i + 2])]


def double(lines, rng):
    i = rng.randrange(len(lines))
    lines[i] = lines[i] + b' ' + lines[i].partition(b' ')[2]


def lengthen(lines, rng):
    """A line of LINE bytes, or one or many more, by blanks, by a token, or by a comment."""
    i = rng.randrange(len(lines))
    length = LINE + rng.choice([-1, 0, 1, 2, 70000])
    lines[i] = (lines[i] + rng.choice([b' ', b'\t', b'0', b'#', b' # '])).ljust(length, rng.choice([b' ', b'0', b'x']))


def address(lines, rng):
    """A side or the f32 filter before a line, whatever it is: a call of another filter, one of a side already, a call that it doesn't take, a comment."""
    i = rng.randrange(len(lines))
    lines[i] = rng.choice([b'@1 ', b'@2 ', b'@1', b'@', b'@3 ', b'@1 @2 ', b'@w ', b'@w @1 ']) + lines[i]


STEPS = [b'sopenp', b'sopenc', b'ask 8', b'ask 0', b'imagep 0', b'imagep 1 4000000000000000', b'imagec 1 1 4000000000000000', b'imagec 2 1 7ff8000000000000', b'sclosep',
         b'sclosec 1 1 4008000000000000 1 4028000000000000 p p t 0000000000000000 p', b'sclosef 1 1 4008000000000000 1 4028000000000000']


def step(lines, rng):
    """Stepped calls between two lines, on any filter, one of them at times again and again: whatever is open, and however far it is."""
    i = rng.randrange(len(lines) + 1)
    on = rng.choice([b'', b'', b'@1 ', b'@2 ', b'@w '])
    lines[i:i] = [on + rng.choice(STEPS) for _ in range(rng.randint(1, 3))] if rng.random() < 0.7 else [on + rng.choice(STEPS)] * rng.randint(2, 20)


# Document 01's C9 as a record, and one state with a turn of 180.
RECORDS = [bytes.fromhex('575001 0000000000000040 0000000000001040 000000000000f03f 000000000000f03f 0000000000000000 0000000000000000' + kind)
           for kind in ('00 0000000000000000', '01 0000000000806640')]


def record(lines, rng):
    """Saves and loads between two lines, on any filter: with any room, and of a record that has other bytes, is cut, or goes on."""
    i = rng.randrange(len(lines) + 1)
    held = bytearray(rng.choice(RECORDS))
    for _ in range(rng.choice([0, 0, 1, 3])):
        held[rng.randrange(len(held))] ^= 1 << rng.randrange(8)
    held = rng.choice([held, held[:rng.randrange(len(held))], held + rng.randbytes(rng.choice([1, 9, 4036, 4037]))])
    digits = held.hex().encode() or b'-'
    load = b'load ' + rng.choice([digits, digits, digits.upper(), digits[1:]])
    save = b'save %d' % rng.choice([0, 59, 60, 61, 1187, 4096, 4097])
    lines[i:i] = [rng.choice([b'', b'', b'@1 ', b'@2 ', b'@w ']) + line for line in rng.sample([load, save, save], rng.randint(1, 3))]


DAMAGES = [flip, flip, flip, replace, replace, cut, cut, join, double, lengthen, address, step, step, record, record]


def main():
    if len(sys.argv) < 3:
        sys.exit(__doc__)
    command, script = shlex.split(sys.argv[1]), sys.argv[2]
    rounds = int(sys.argv[3]) if len(sys.argv) > 3 else 200
    seed = int(sys.argv[4]) if len(sys.argv) > 4 else 1
    with open(script, 'rb') as source:
        whole = source.read().split(b'\n')
    rng = random.Random(seed)
    total = answered = bad = 0
    for number in range(rounds):
        start = rng.randrange(max(1, len(whole) - 40))
        lines = whole[start:start + rng.randint(1, 120)]
        for _ in range(rng.randint(1, 20)):
            rng.choice(DAMAGES)(lines, rng)
        text = b'\n'.join(lines) + rng.choice([b'', b'\n'])
        wanted = [is_answered(line) for line in text.split(b'\n')]
        run = subprocess.run(command, input=text, capture_output=True, timeout=120, check=False)
        answers = run.stdout.split(b'\n')
        formless = sum(not ANSWER.fullmatch(answer) for answer in answers[:-1])
        if run.returncode != 0 or answers[-1] != b'' or len(answers) - 1 != sum(wanted) or formless:
            with open('damaged.script', 'wb') as out:
                out.write(text)
            sys.exit(f'round {number}: status {run.returncode}, {len(answers) - 1} answers for {sum(wanted)} calls, {formless} of no form; the script is in damaged.script')
        total += len(wanted)
        answered += sum(wanted)
        bad += answers.count(b'bad')
    print(f'{rounds} damaged scripts, {total} lines, {answered} answers as expected, {bad} of them `bad`')


if __name__ == '__main__':
    main()
