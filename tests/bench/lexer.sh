#!/bin/sh
# Measures the lexer: makes a throw-away repository with the lexer and a small program that lexes a generated source of
# 1,000,000 bytes twenty times, and prints how many bytes a second it lexes. It stands outside the gate.
#
#     sh tests/bench/lexer.sh
. "$(dirname "$0")/repository.sh"
bench_repository hy_base hy_lexer <<'END'
//! Lexes what it reads twenty times, and prints the time.
#![tactic(auto)]

use hy_lexer::lex;
use std::fs;
use std::io;
use std::time::Instant;

fn main(rt: HostRuntime) -> io::Result<()> {
    let source = fs::read(&rt, "source.hylo")?;
    if source.len() > 1_048_576 {
        return Ok(());
    }
    let mut right = 0u32;
    let start = Instant::now(&rt)?;
    for _ in 0..20u32 {
        if lex(rt.alloc(), source.as_slice()).is_ok() {
            right = right.saturating_add(1);
        }
    }
    let spent = start.elapsed(&rt)?;
    let length = source.len();
    let micros = spent.as_micros();
    println!(rt; "{length} {right} {micros}")
}
END
python3 - "$data/source.hylo" <<'END'
import sys
piece = """// A queue of numbers, kept as an array.
type Queue: Deinitializable {
  var items: Array<Int>
  var first_index: Int

  fun push(_ value: sink Int) inout {
    self.items.append(value)
    /* nothing /* nested */ here */
    if self.first_index >= 1_000 && value != -1 { self.first_index += 1 } else { self.first_index = 0 }
  }

  subscript at(_ index: Int): Int {
    let { yield self.items[index] }
    inout { yield &self.items[index] }
  }
}

public fun größe(_ queue: Queue, _ πλάτος: Int) -> Int {
  while queue.first_index < 42 { return queue.items.count * πλάτος % 7 }
  return 9223372036854775807
}

"""
text = b""
while len(text) + len(piece.encode()) <= 1000000:
    text += piece.encode()
text += b" " * (1000000 - len(text))
open(sys.argv[1], "wb").write(text)
END
bench_run
python3 - "$work/out" <<'END'
import re, sys
for line in open(sys.argv[1]):
    found = re.fullmatch(r"(\d+) (\d+) (\d+)\s*", line)
    if found:
        length, right, micros = map(int, found.groups())
        if right != 20:
            sys.exit("the source was refused")
        print(f"{20 * length / micros:.1f} MB/s ({length} bytes, {right} times, {micros} microseconds)")
END
