#!/bin/sh
# Refuses every allocation in turn while the built program runs the objects of tests/objects.txt, and of tests/rows the
# largest sources of each answer: each answer must be that of ample memory, or status 8 after a beginning of its output, and the
# files must be as they were. While the words of the command line are taken it is status 20, with nothing written. It stands
# outside the gate, and needs a C compiler.
#
#     sh tests/bench/memory.sh [PROGRAM]
here=$(cd "$(dirname "$0")" && pwd) || exit 1
work=$(mktemp -d) || exit 1
trap 'rm -rf "$work"' EXIT
cat > "$work/refuse.c" <<'END'
// Refuses the allocation whose number is in REFUSED, and then makes the file `refused`.
#include <fcntl.h>
#include <stdlib.h>
#include <unistd.h>

void *__libc_malloc(size_t);
void *__libc_realloc(void *, size_t);

static int is_refused(void) {
    static long left;
    if (left == 0) {
        const char *number = getenv("REFUSED");
        left = number ? atol(number) : -1;
    }
    if (left < 0 || --left > 0)
        return 0;
    left = -1;
    close(open("refused", O_CREAT | O_WRONLY, 0600));
    return 1;
}

void *malloc(size_t size) { return is_refused() ? 0 : __libc_malloc(size); }
void *realloc(void *old, size_t size) { return is_refused() ? 0 : __libc_realloc(old, size); }
END
cc -shared -fPIC -fno-builtin -O1 -o "$work/refuse.so" "$work/refuse.c" || exit 1
PYTHONPATH=$here/.. python3 -B - "$here/.." "$work" ${1:+"$1"} <<'END'
import itertools
import pathlib
import subprocess
import sys

import assembler
import row_reader

TESTS, WORK = (pathlib.Path(path).resolve() for path in sys.argv[1:3])
PROGRAM = pathlib.Path(sys.argv[3]).resolve() if sys.argv[3:] else TESTS.parent / 'crates' / 'hyloc' / 'out' / 'hyloc'
MARK = WORK / 'refused'
LARGEST = 2  # sources of each answer


def answer(words, stdin, refused):
    """The status, the output and the errors where that allocation is refused, and whether there was one of that number."""
    MARK.unlink(missing_ok=True)
    done = subprocess.run([str(PROGRAM), *words], cwd=WORK, input=stdin, capture_output=True, timeout=60,
                          env={'LD_PRELOAD': str(WORK / 'refuse.so'), 'REFUSED': str(refused)})
    return (done.returncode, done.stdout, done.stderr), MARK.exists()


def is_right(got, ample, is_first):
    """Whether this may be answered, to the first allocations or later, where that is answered with ample memory."""
    wanting = got[0] == 8 and ample[1].startswith(got[1])
    return got == ample or wanting or is_first and got == (20, b'', b'')


def contents():
    """What each file has, but for the mark."""
    return {path.name: path.read_bytes() for path in WORK.iterdir() if path != MARK}


def calls():
    """The name of each call, its words, its input, and what its file has."""
    for row in assembler.rows((TESTS / 'objects.txt').read_text()):
        yield row.name, row.words('row.hyo'), row.stdin, assembler.spelling(row.functions)
    answers = {}
    for path in sorted((TESTS / 'rows').glob('*.txt')):
        for row in row_reader.read(path.name, path.read_text())[0]:
            if row.has_file() and row.words[0] == 'run':
                answers.setdefault(row.answer, []).append(row)
    for rows in answers.values():
        for row in sorted(rows, key=lambda row: len(row.source))[-LARGEST:]:
            yield row.name, row.words, row.stdin(), row.source


tried = failed = most = 0
for name, words, stdin, source in calls():
    file = WORK / words[1]
    file.write_bytes(source)
    ample, _ = answer(words, stdin, -1)
    before = contents()
    is_first = True
    for refused in itertools.count(1):
        got, was_refused = answer(words, stdin, refused)
        if not was_refused:
            break
        tried += 1
        most = max(most, refused)
        is_first = is_first and got[0] == 20
        if not is_right(got, ample, is_first) or contents() != before:
            failed += 1
            print('%s, allocation %d: wanted %r or status 8, and the same files, got %r' % (name, refused, ample, got))
    file.unlink()
print('at most %d allocations in a row' % most)
print('%d passed, %d failed' % (tried - failed, failed))
sys.exit(1 if failed or not tried else 0)
END
