#!/usr/bin/env python3
"""What the program schedule_edges must print, worked out from document 01 ("Schedule file" and "Numbers of refusal")
and request P3 of document 02 alone.

Prints the text. With --check it compares the text, line by line, with the stored crates/schedule_edges/stdout; last line 'N passed, M failed'."""
import os
import sys

STORED = os.path.join(os.path.dirname(os.path.abspath(__file__)), '..', 'crates', 'schedule_edges', 'stdout')
MOST = 16384
HEADER = 11


def word(b, i):
    return b[i] + 256 * b[i + 1]


def permitted(mode, n, k, version):
    return mode in (0, 1) and 1 <= n <= 256 and 1 <= k <= 16 and k <= n and version in (1, 2)


def header(b):
    """The number of the first of opening's tests but the last, or 0."""
    if len(b) < HEADER:
        return 8
    if b[0:3] != b'GRS':
        return 9
    if word(b, 3) not in (1, 2):
        return 10
    if not permitted(b[5], word(b, 6), b[8], word(b, 3)):
        return 1
    if word(b, 9) > MOST:
        return 11
    if len(b) != HEADER + 3 * word(b, 9):
        return 8
    return 0


def opening(b):
    number = header(b)
    if number:
        return [number]
    if any(b[HEADER + 3 * i] > 2 for i in range(word(b, 9))):
        return [12]
    return [0, b[5], word(b, 6), b[8], word(b, 3), word(b, 9)]


def reading(b, at):
    """The answer, and where the reader then stands."""
    number = header(b)
    if number:
        return [number], at
    if at >= word(b, 9):
        return [13], at
    place = HEADER + 3 * at
    if b[place] > 2:
        return [12], at
    return [0, b[place], word(b, place + 1)], at + 1


def writing(mode, n, k, version, numbers, room):
    """The answer, and the room afterwards."""
    if not permitted(mode, n, k, version):
        return [1], room
    if len(numbers) > MOST:
        return [11], room
    if any(number // 65536 > 2 for number in numbers):
        return [12], room
    out = b'GRS' + version.to_bytes(2, 'little') + bytes([mode]) + n.to_bytes(2, 'little') + bytes([k])
    out += len(numbers).to_bytes(2, 'little')
    for number in numbers:
        out += bytes([number // 65536]) + (number % 65536).to_bytes(2, 'little')
    if len(room) < len(out):
        return [14], room
    return [0, len(out)], out + room[len(out):]


def text():
    lines = []

    def say(*words):
        lines.append(' '.join(str(w) for w in words))

    def read(b, at):
        answer, after = reading(b, at)
        say('read', at, *answer, after)

    def write(mode, n, k, version, numbers, room):
        answer, after = writing(mode, n, k, version, numbers, room)
        say('write', *answer, after.hex())

    # the largest file, one event more, and one byte more or less than its length
    big = bytearray(HEADER + 3 * (MOST + 1))
    say('open', *opening(big[:0]))
    big[0:HEADER] = b'GRS' + bytes([1, 0, 1, 0, 1, 16, 0, 64])
    whole = HEADER + 3 * MOST
    for length in (whole, whole - 1, whole + 1):
        say('open', *opening(big[:length]))
    for at in (MOST - 1, MOST, 2**64 - 1):
        read(big[:whole], at)
    big[whole - 3] = 3
    say('open', *opening(big[:whole]))
    for at in (MOST - 2, MOST - 1, MOST):
        read(big[:whole], at)
    big[9] = 1
    say('open', *opening(big[:whole + 3]))
    say('open', *opening(big[:HEADER]))

    # a file of three events, every cut of it, and every byte of it changed
    small = b'GRS' + bytes([1, 0, 1, 2, 0, 2, 3, 0, 0, 0, 0, 1, 1, 0, 2, 255, 255])
    say('open', *opening(small))
    for at in range(4):
        read(small, at)
    for length in range(len(small) + 1):
        say('cut', length, opening(small[:length])[0])
    for place in range(len(small)):
        runs = []
        for byte in range(256):
            b = small[:place] + bytes([byte]) + small[place + 1:]
            answers = ''.join('%x' % n for n in [opening(b)[0]] + [reading(b, at)[0][0] for at in range(4)])
            if runs and runs[-1][2] == answers:
                runs[-1][1] = byte
            else:
                runs.append([byte, byte, answers])
        for first, last, answers in runs:
            say('byte', place, first, last, answers)

    # the file with other versions; where it opens, it is read and written back, the same bytes
    room = bytes([170] * 22)
    events, coded, many = [0, 65537, 196607], [0, 196608, 0], [0] * (MOST + 1)
    for version in (0, 1, 2, 3, 257, 512):
        b = small[:3] + version.to_bytes(2, 'little') + small[5:]
        answer = opening(b)
        say('open', *answer)
        if answer[0] == 0:
            say('write', 0, len(b), (b + room[len(b):]).hex())

    # the writer's tests in their order, and a room longer than the file
    write(0, 2, 3, 1, many, room[:19])
    write(1, 2, 2, 1, many, room[:19])
    write(1, 2, 2, 1, coded, room[:19])
    write(1, 2, 2, 1, events, room[:19])
    write(1, 2, 2, 1, coded, room)
    write(1, 2, 2, 1, events, room)
    for version in (0, 1, 2, 3, 257):
        write(1, 2, 2, version, events, room)
    return '\n'.join(lines) + '\n'


def main():
    expected = text()
    if sys.argv[1:] != ['--check']:
        sys.stdout.write(expected)
        return 0
    want = expected.split('\n')
    have = open(STORED, encoding='utf-8').read().split('\n')
    wrong = [i for i in range(max(len(want), len(have))) if want[i:i + 1] != have[i:i + 1]]
    for i in wrong[:10]:
        print(f'line {i + 1}: expected {want[i:i + 1]}, stored {have[i:i + 1]}')
    print(f'{len(want) - 1 - len(wrong)} passed, {len(wrong)} failed')
    return 1 if wrong else 0


sys.exit(main())
