#!/bin/sh
# Measures the machine that checks: runs the built program on two generated objects, a loop of ten million turns and one that
# besides opens and closes an access each time, and prints how many instructions a second it does. It stands outside the gate.
#
#     sh tests/bench/exec.sh
here=$(cd "$(dirname "$0")" && pwd) || exit 1
PYTHONPATH=$here/.. exec python3 -B - "$here/../../hyloc" <<'END'
import pathlib
import subprocess
import sys
import tempfile
import time

import assembler

TURNS = 10_000_000
COUNTING = 'Const 0 0; Const 1 %d; Const 2 1; %sAdd 0 0 2 0; Lt 3 0 1; JumpIf 3 3; Return 0'
LOOPS = [('turns', 3, COUNTING % (TURNS, '')), ('accesses', 5, COUNTING % (TURNS, 'Lend 0 .3 1 write; Close 0; '))]

with tempfile.TemporaryDirectory() as folder:
    for name, each, code in LOOPS:
        file = pathlib.Path(folder, name + '.hyo')
        file.write_bytes(assembler.spelling([assembler.function([0, 0, 0, 4, 1], code)]))
        start = time.monotonic()
        done = subprocess.run([sys.argv[1], 'exec', str(file), '--turns', '4294967296', '--report'], capture_output=True)
        spent = time.monotonic() - start
        turns = done.stderr.split()[1].decode()
        if done.returncode != 0 or int(turns) != TURNS:
            sys.exit('%s: status %d, %r' % (name, done.returncode, done.stderr))
        print('%s: %.2f seconds, %.1f million instructions a second' % (name, spent, TURNS * each / spent / 1e6))
END
