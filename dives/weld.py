"""Writes dives/weld.script: a weld head with a heading that crosses the wrap, two beacon ranges and a compass. Run it to write the script anew.

The state is east and north in metres and the heading in degrees. Parameters 1, 0, 1 for three states give N = 4, so the points lie two standard deviations out
(the root of 4), w0m = 0.25, w0c = 0.25 and the other weights 0.125. The motion and the beacons' ranges are worked out here, as the box would."""
import math
import os
import struct

BEACONS = ((-69.0, 40.0), (31.0, -60.0))     # due west and due south of where the head is expected


def word(x):
    return struct.pack('>d', x).hex()


def numbers(values):
    values = list(values)
    return ' '.join([str(len(values))] + [word(v) for v in values])


def wrapped(degrees):
    while degrees > 180.0:
        degrees -= 360.0
    while degrees <= -180.0:
        degrees += 360.0
    return degrees


def moved(point):
    """A second later: one metre east, ten degrees to the right."""
    east, north, heading = point
    return east + 1.0, north, wrapped(heading + 10.0)


def read(point):
    """What the two beacons and the compass would read at a point."""
    east, north, heading = point
    return [math.hypot(east - e, north - n) for e, n in BEACONS] + [heading]


def around(center, steps):
    """2n+1 points: the centre, then plus and minus each step along its own axis."""
    points = [list(center)]
    for sign in (1.0, -1.0):
        for axis, step in enumerate(steps):
            point = list(center)
            point[axis] += sign * step
            points.append(point)
    return points


def flat(points):
    return [number for point in points for number in point]


STEPS = (4.0, 4.0, 10.0)                      # twice the standard deviations 2, 2 and 5
START = (30.0, 40.0, 175.0)
first = [moved(p) for p in around(START, STEPS)]

lines = [
    '# A weld head at 30 m east, 40 m north, heading 175 degrees; standard deviations 2 m, 2 m and 5 degrees.',
    '# The process noise adds 1 to each variance. Parameters alpha 1, beta 0, kappa 1.',
    'new 3 ' + numbers(START) + ' ' + numbers((4.0, 0.0, 0.0, 0.0, 4.0, 0.0, 0.0, 0.0, 25.0)) + ' ' + numbers((1.0, 0.0, 0.0, 0.0, 1.0, 0.0, 0.0, 0.0, 1.0)) + ' ' + word(1.0) + ' ' + word(0.0) + ' ' + word(1.0),
    '# The heading is a turn of 180 degrees either way.',
    'setkind 2 t ' + word(180.0),
    '# Seven points: the state, and 4 m, 4 m and 10 degrees to either side.',
    'openp 21',
    '# A second later each point is one metre further east and ten degrees further round: 185 is -175.',
    '# The mean is taken from the first point, so the heading comes out at -175 and not near zero; the variances are 4+1, 4+1, 25+1.',
    'closep ' + numbers(flat(first)),
    'readstale',
    '# A beacon due west, one due south, and the compass. The points as they are: not stale.',
    'openc 21',
    '# A compass that answers rubbish: refused with 55 at place 2, the third measurement, and nothing has changed. The same with no room for three numbers: 2.',
    'closec 3 ' + numbers((101.0, 99.5, math.nan)) + ' ' + numbers((1.0, 0.0, 0.0, 0.0, 1.0, 0.0, 0.0, 0.0, 4.0)) + ' p p t ' + word(180.0) + ' p ' + numbers(flat(read(p) for p in first)),
    'closec 3 ' + numbers((101.0, 99.5)) + ' ' + numbers((1.0, 0.0, 0.0, 0.0, 1.0, 0.0, 0.0, 0.0, 4.0)) + ' p p t ' + word(180.0) + ' p ' + numbers(flat(read(p) for p in first)),
    '# Ranges 101 m and 99.5 m, heading 178: seven degrees to the left of -175, across the wrap. Noise 1 m, 1 m, 2 degrees.',
    '# The points spread by 4, 4 and 25 (the process noise is not in them), so the gains are 4/5, 4/5 and 25/29:',
    '# the west range is about a metre longer than expected and east grows by 4/5 of that; the heading goes back by 7*25/29 = 6.03 degrees, to -181.03.',
    'closec 3 ' + numbers((101.0, 99.5, 178.0)) + ' ' + numbers((1.0, 0.0, 0.0, 0.0, 1.0, 0.0, 0.0, 0.0, 4.0)) + ' p p t ' + word(180.0) + ' p ' + numbers(flat(read(p) for p in first)),
    '# A state is not brought back into the half-turn; whoever wants it so can wrap it: -181.03 is 178.97.',
    'wrap ' + word(-175.0 - 7.0 * 25.0 / 29.0) + ' ' + word(180.0),
    '# Stale now: the points in use are those of before the fix, and are not shown.',
    'readstale',
    'readpts 21',
    '# The next correction draws points afresh. The flat close knows no turns, so a filter with a heading is turned away by name, 10.',
    'openc 21',
    'closef 1 ' + numbers((101.0,)) + ' ' + numbers((1.0,)) + ' ' + numbers(read(p)[0] for p in first),
    '# It is given up, and the filter is as it was.',
    'abandon',
    'readx 3',
    'readp 9',
]

if __name__ == '__main__':
    with open(os.path.join(os.path.dirname(os.path.abspath(__file__)), 'weld.script'), 'w') as out:
        out.write('\n'.join(lines) + '\n')
