#!/usr/bin/env python3
"""Runs target/bin/gridlist on every schedule under examples/ and compares what it prints with the text beside it; also when the input
arrives byte by byte. Last line: 'N passed, M failed'."""
import glob
import os
import subprocess
import sys
import time

ROOT = os.path.join(os.path.dirname(os.path.abspath(__file__)), '..')
PROGRAM = os.path.join(ROOT, 'target', 'bin', 'gridlist')


def listing(data, pieces=False):
    """What the program prints of these bytes."""
    run = subprocess.Popen([PROGRAM], stdin=subprocess.PIPE, stdout=subprocess.PIPE)
    if not pieces:
        return run.communicate(data, timeout=60)[0]
    for byte in data:
        run.stdin.write(bytes([byte]))
        run.stdin.flush()
        time.sleep(0.001)
    run.stdin.close()
    return run.stdout.read()


def main():
    passed, wrong = 0, []
    cases = []
    for path in sorted(glob.glob(os.path.join(ROOT, 'examples', '*.grs'))):
        name = os.path.basename(path)
        data = open(path, 'rb').read()
        expected = open(path[:-4] + '.txt', 'rb').read()
        cases.append((name, listing(data), expected))
        if len(data) < 200:
            cases.append((name + ', byte by byte', listing(data, pieces=True), expected))
    for name, got, expected in cases:
        if got == expected:
            passed += 1
        else:
            wrong.append(name)
    for name in wrong:
        print(f'{name}: another text than expected')
    print(f'{passed} passed, {len(wrong)} failed')
    return 1 if wrong or not passed else 0


sys.exit(main())
