# Sourced by the benchmarks: makes a throw-away repository in $work with the crates that are named, which must be all that they
# stand on, and a program `bench` over them, whose src/main.rt comes from the standard input and whose files lie in its data/.
set -eu
here=$(cd "$(dirname "$0")/../.." && pwd)
work=$(mktemp -d)
[ -n "${KEEP:-}" ] || trap 'rm -rf "$work"' EXIT
data=$work/crates/bench/data

bench_repository() {
    mkdir -p "$work/crates/bench/src" "$work/crates/bench/specs" "$data"
    cp "$here/HANDLES" "$work/"
    for crate in "$@"; do
        cp -r "$here/crates/$crate" "$work/crates/"
        grep "^$crate:" "$here/crates.txt" >> "$work/crates.txt"
    done
    rm -rf "$work"/crates/*/must-fail
    echo "bench: $* anyhow" >> "$work/crates.txt"
    cat > "$work/crates/bench/src/main.rt"
}

# Builds the program, and runs it where its files lie. The first run only builds it.
bench_run() {
    (cd "$work/crates/bench" && rt run > "$work/log" 2>&1) || true
    (cd "$data" && ../out/bench) > "$work/out" || { cat "$work/log"; exit 1; }
}
