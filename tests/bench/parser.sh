#!/bin/sh
# Measures the parser: makes a throw-away repository with the parser and a small program that parses a generated source of
# 1,048,576 bytes, and prints how many bytes a second it parses (without the lexer, and without or with the time that it takes to
# free the tree), and how much memory a byte of the source takes at most beyond its tokens. It stands outside the gate.
#
#     sh tests/bench/parser.sh
. "$(dirname "$0")/repository.sh"
bench_repository hy_base hy_lexer hy_tree hy_grammar hy_grammar_laws hy_phrases hy_expressions hy_statements hy_parser <<'END'
//! Parses what it reads as often as its file `times` says, and prints the time.
#![tactic(auto)]

use hy_lexer::{lex, spans_are_apart};
use hy_parser::parse;
use std::fs;
use std::io;
use std::time::Instant;

fn main(rt: HostRuntime) -> io::Result<()> {
    let source = fs::read(&rt, "source.hylo")?;
    let times = fs::read(&rt, "times")?.len();
    let Ok(length) = u32::try_from(source.len()) else {
        return Ok(());
    };
    if length > 1_048_576 {
        return Ok(());
    }
    let Ok(tokens) = lex(rt.alloc(), source.as_slice()) else {
        return Ok(());
    };
    spans_are_apart();
    let mut right = 0u32;
    let mut micros = 0;
    let start = Instant::now(&rt)?;
    for _ in 0..times {
        let begun = Instant::now(&rt)?;
        let parsed = parse(rt.alloc(), tokens.as_slice(), length);
        micros = begun.elapsed(&rt)?.as_micros().saturating_add(micros);
        if parsed.is_ok() {
            right = right.saturating_add(1);
        }
    }
    let count = tokens.len();
    let all = start.elapsed(&rt)?.as_micros();
    println!(rt; "{length} {count} {right} {micros} {all}")
}
END
python3 - "$data" <<'END'
import sys
piece = """type Queue: Deinitializable {
  var items: Array<Int>
  var first_index: Int
  fun push(_ value: sink Int) inout {
    self.items.append(value)
    if self.first_index >= 1_000 && value != -1 { self.first_index += 1 } else { self.first_index = 0 }
  }
  subscript at(_ index: Int): Int {
    let { yield self.items[index] }
    inout { yield &self.items[index] }
  }
}
public fun size(_ queue: Queue, _ width: Int) -> Int {
  while queue.first_index < 42 { return queue.items.count * width % 7 }
  return if width > 0 { width } else { (1 + 2) * 3 }
}
"""
text = piece * (1048576 // len(piece))
text += " " * (1048576 - len(text))
open(sys.argv[1] + "/source.hylo", "w").write(text)
open(sys.argv[1] + "/times", "w").write("x" * 20)
END
bench_run
cd "$data"
python3 - "$work/out" <<'END'
import os, subprocess, sys
length, count, right, micros, all_micros = map(int, open(sys.argv[1]).read().split())
if right != 20:
    sys.exit("the source was refused")
print(f"{20 * length / micros:.1f} MB/s, {20 * length / all_micros:.1f} with what frees the trees ({length} bytes, {count} tokens, {right} times)")

def peak(times):
    open("times", "w").write("x" * times)
    run = subprocess.Popen(["../out/bench"], stdout=subprocess.DEVNULL)
    return os.wait4(run.pid, 0)[2].ru_maxrss * 1024

without, once = peak(0), peak(1)
print(f"{(once - without) / length:.0f} bytes of tree a byte of source ({without} and {once} bytes at most without and with a parse)")
END
