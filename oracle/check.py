#!/usr/bin/env python3
"""check.py PLAYER N: see check.sh.  The script at fault is left beside this file, in differs.script."""
import glob
import os
import subprocess
import sys

import gen
import model

HERE = os.path.dirname(os.path.abspath(__file__))

EDGES = [
    ('empty input', b''), ('one line feed', b'\n'), ('two line feeds', b'\n\n'),
    ('no line feed at the end', b'b 1'), ('one at the end', b'b 1\n'), ('two at the end', b'b 1\n\n'),
    ('carriage returns', b'b 1\r\ns 1\r\n'), ('cut word', b'b 1\nw 1 0'), ('ends in a space', b'b 1 '),
    ('a long line', b'b ' + b'1' * 5000 + b'\nb 1\n'), ('a NUL', b'b 1\x00\nb 1\n'),
    ('bytes over 127', bytes(range(128, 256)) + b'\nb 1\n'),
    ('exactly 65,536 bytes', b'b 1\n' + b's 1\n' * 16383),
    ('exactly 65,536 bytes, no line feed', b'b 01\n' + b's 1\n' * 16382 + b's 1'),
    ('65,536 line feeds', b'\n' * 65536),
]
# over the limit the rule is taken to mean: the first 65,536 bytes, the rest unread
OVER = [
    ('over 65,536 bytes, cut inside a line', b'b 01\nb 01\n' + b's 1\n' * 20000),
    ('over 65,536 bytes, cut behind a line', b'b 1\n' + b's 1\n' * 20000),
]


def play(player, script):
    run = subprocess.run([player], input=script, stdout=subprocess.PIPE, stderr=subprocess.PIPE,
                         timeout=120)
    return run.stdout, run.returncode


def show(name, script, want, got):
    with open(os.path.join(HERE, 'differs.script'), 'wb') as f:
        f.write(script)
    print('DIFFERS: ' + name)
    lines = model.lines_of(script)
    w, g = want.split(b'\n'), got.split(b'\n')
    for n in range(max(len(w), len(g))):
        a = w[n] if n < len(w) else None
        b = g[n] if n < len(g) else None
        if a != b:
            for k in range(max(0, n - 12), n + 1):
                call = lines[k] if k < len(lines) else b''
                print('  %-22r model: %-24r player: %r' % (
                    call, w[k] if k < len(w) else None, g[k] if k < len(g) else None))
            break


def main():
    if len(sys.argv) != 3 or not sys.argv[2].isdigit():
        print('check.sh PLAYER N')
        return 2
    player, n = os.path.abspath(sys.argv[1]), int(sys.argv[2])
    ended = {}

    def same(name, script, want):
        try:
            got, code = play(player, script)
        except subprocess.TimeoutExpired:
            print('DIFFERS: %s: no end within 120 seconds' % name)
            return False
        ended[code] = ended.get(code, 0) + 1
        if got != want:
            show(name, script, want, got)
            return False
        return True

    for path in sorted(glob.glob(os.path.join(HERE, '..', 'crates', 'replay', 'data', '*.script'))):
        with open(path, 'rb') as f:
            script = f.read()
        with open(path[:-len('script')] + 'expected', 'rb') as f:
            want = f.read()
        if not same('example ' + os.path.basename(path), script, want):
            return 1
    for name, script in EDGES:
        if not same(name, script, model.play(script)):
            return 1
    for seed in range(1, n + 1):
        script = gen.script(seed)
        if not same('seed %d' % seed, script, model.play(script)):
            return 1
    print('examples, %d edges and seeds 1..%d: all the same' % (len(EDGES), n))
    over = [same(name, script, model.play(script)) for name, script in OVER]
    if not all(over):
        print('(over 65,536 bytes the rules leave a choice; this is only a remark)')
    if set(ended) != {0}:
        print('exit codes seen (the rules fix none): %s' % ended)
    return 0


if __name__ == '__main__':
    sys.exit(main())
