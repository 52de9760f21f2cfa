#!/bin/sh
# Measures the decoder: makes a throw-away repository with the object crate and a small program that decodes a generated
# object of 50,000,000 bytes and encodes it again, and prints how many bytes a second each does. It stands outside the gate.
#
#     sh tests/bench/object.sh
. "$(dirname "$0")/repository.sh"
bench_repository hy_base hy_object <<'END'
//! Decodes what it reads and encodes it again, five times, and prints the times.
#![tactic(auto)]

use hy_object::{decode, encode};
use std::fs;
use std::io;
use std::time::Instant;

fn main(rt: HostRuntime) -> io::Result<()> {
    let bytes = fs::read(&rt, "object.hyo")?;
    for _ in 0..5u32 {
        let start = Instant::now(&rt)?;
        let Ok(object) = decode(rt.alloc(), bytes.as_slice()) else {
            return Ok(());
        };
        let decoded = start.elapsed(&rt)?;
        let start = Instant::now(&rt)?;
        let Ok(again) = encode(rt.alloc(), &object) else {
            return Ok(());
        };
        let encoded = start.elapsed(&rt)?;
        let same = again.as_slice() == bytes.as_slice();
        let length = bytes.len();
        let decoded = decoded.as_micros();
        let encoded = encoded.as_micros();
        println!(rt; "{length} {same} {decoded} {encoded}")?;
    }
    Ok(())
}
END
python3 - "$data/object.hyo" <<'END'
import sys

def count(n):
    out = b""
    while n >= 128:
        out += bytes([128 + n % 128])
        n //= 128
    return out + bytes([n])

def row(number, *fields):
    return bytes([number]) + b"".join(count(n) for n in fields)

# a function of 300 words and 20 slots, with most kinds of instruction
body = [
    row(1, 5) + b"\xc0\x00", row(2, 0, 17, 3, 250, 4), row(4, 1, 2, 3, 100), row(6, 200, 299, 7, 3), row(10, 1, 2, 3),
    row(15, 3, 9), row(11, 130, 2, 140), row(22, 4, 0, 12, 6, 1), row(23, 5, 1, 0, 8, 2, 1, 40), row(24, 5),
    row(17, 0, 3, 20), row(27, 0, 30, 40, 2), row(30, 6, 0, 30), row(3, 0, 40, 0, 60, 3), row(13, 1, 1), row(32, 7, 0),
    row(34, 8, 12), row(16, 1, 4), row(1, 129) + b"\x7f", row(26, 0, 30, 2),
]
code = b"".join(body * 50) + row(18, 0)
places = len(body) * 50 + 1
one = count(0) + count(0) + count(0) + count(300) + count(20) + count(places) + code
spans = b"".join(count(1000 * i) + count(20) for i in range(200))
funs = (50000000 - 20 - len(spans)) // len(one)
file = b"HYLO\x01" + count(200) + spans + count(funs) + one * funs
open(sys.argv[1], "wb").write(file)
END
bench_run
python3 - "$work/out" <<'END'
import re, sys
best = None
for line in open(sys.argv[1]):
    found = re.fullmatch(r"(\d+) (\w+) (\d+) (\d+)\s*", line)
    if found:
        if found[2] != "true":
            sys.exit("other bytes")
        length, decoded, encoded = int(found[1]), int(found[3]), int(found[4])
        best = (length, min(decoded, best[1]), min(encoded, best[2])) if best else (length, decoded, encoded)
if best is None:
    sys.exit("the object was refused")
length, decoded, encoded = best
print(f"decode {length / decoded:.1f} MB/s, encode {length / encoded:.1f} MB/s ({length} bytes, the best of five)")
END
