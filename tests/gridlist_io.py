#!/usr/bin/env python3
"""Runs target/bin/gridlist, or the program that is named, where input or output fails, and on the longest and too long files. What it
prints, and what it says on standard error, is compared whole. Last line: 'N passed, M failed'."""
import os
import pty
import subprocess
import sys
import tempfile
import tty

ROOT = os.path.join(os.path.dirname(os.path.abspath(__file__)), '..')
PROGRAM = os.path.abspath(sys.argv[1] if len(sys.argv) > 1 else os.path.join(ROOT, 'target', 'bin', 'gridlist'))
NOT_READ = b'gridlist: standard input cannot be read\n'
NOT_WRITTEN = b'gridlist: standard output cannot be written\n'
MOST = 16384


def schedule(count):
    """A long-lived schedule of so many turns of a task that is none of the 256, and its listing."""
    data = b'GRS' + bytes([1, 0, 1, 0, 1, 16]) + count.to_bytes(2, 'little') + bytes([1, 255, 255]) * count
    lines = ['grid 1 256 16'] + [f'{i} turn 65535 refused 4' for i in range(count)] + ['end 0 0 0']
    return data, ''.join(line + '\n' for line in lines).encode()


def run(stdin, stdout=subprocess.PIPE, around='"$0"'):
    """(standard output, standard error) of the program, which a shell starts with this command."""
    done = subprocess.run(['bash', '-c', around, PROGRAM], stdin=stdin, stdout=stdout, stderr=subprocess.PIPE, timeout=60)
    return done.stdout or b'', done.stderr


def run_on(data, **how):
    with tempfile.TemporaryFile() as file:
        file.write(data)
        file.seek(0)
        return run(file, **how)


def run_on_broken(data):
    """The input gives these bytes, and then its next read fails."""
    ours, theirs = pty.openpty()
    tty.setraw(theirs)
    os.write(theirs, data)
    os.close(theirs)
    try:
        return run(ours)
    finally:
        os.close(ours)


def cases():
    one, listed = schedule(1)
    longest, longest_listed = schedule(MOST)
    refused = b'refused 8\n', b''
    yield 'one event', run_on(one), (listed, b'')
    yield 'no input', run_on(b''), refused
    yield 'the longest file', run_on(longest), (longest_listed, b'')
    yield 'the longest file less one byte', run_on(longest[:-1]), refused
    yield 'the longest file and one byte', run_on(longest + b'\0'), refused
    for length in 65535, 65536, 65537, 200000:
        yield f'the longest file with zeros to {length} bytes', run_on(longest.ljust(length, b'\0')), refused
    yield '1 MB of zeros', run_on(bytes(1000000)), (b'refused 9\n', b'')
    with open('/dev/full', 'wb') as full:
        yield 'output on a full disk', run_on(one, stdout=full), (b'', NOT_WRITTEN)
        yield 'a long output on a full disk', run_on(longest, stdout=full), (b'', NOT_WRITTEN)
    yield 'no output', run_on(one, around='"$0" >&-'), (b'', NOT_WRITTEN)
    yield 'no standard input', run_on(one, around='"$0" <&-'), (b'', NOT_READ)
    yield 'input is a directory', run_on(one, around='"$0" <.'), (b'', NOT_READ)
    yield 'a read fails after the last byte of a file', run_on_broken(one), (b'', NOT_READ)


def main():
    passed, failed = 0, 0
    for name, got, expected in cases():
        if got == expected:
            passed += 1
            continue
        failed += 1
        for what, text, wanted in zip(('printed', 'said'), got, expected):
            if text != wanted:
                print(f'{name}: {what} {text[:60]!r} ({len(text)} bytes) and not {wanted[:60]!r} ({len(wanted)} bytes)')
    print(f'{passed} passed, {failed} failed')
    return 1 if failed or not passed else 0


sys.exit(main())
