#!/bin/sh
# Times 20 million casts in each mode, by this repository's `cast` and by plain Rust (casts.rs, built by `rustc -O`).
# Each line: rounding, overflow, milliseconds at inputs of 64 bits and of 120 bits to one format, and of 64 bits to two formats in turn, as a
# body casts; then three sums that must agree.
# program.txt is the source of a throw-away program crate, which is made in a folder of its own: it is no part of the gate.
set -e
here=$(cd "$(dirname "$0")" && pwd)
work=$(mktemp -d)
mkdir -p "$work/crates"
cp "$here/../../HANDLES" "$work"
printf '# the bench\n' >"$work/crates.txt"
(cd "$work" && rt new crates/casts_bench start_io >/dev/null)
rm -rf "$work"/crates/casts_bench/*
mkdir "$work/crates/casts_bench/src"
cp "$here/program.txt" "$work/crates/casts_bench/src/main.rt"
(cd "$here/../../crates" && tar cf - --exclude out --exclude must-fail tdf_base tdf_fixed) | (cd "$work/crates" && tar xf -)
printf 'tdf_base: itoa thiserror\ntdf_fixed: tdf_base itoa thiserror\ncasts_bench: tdf_fixed\n' >"$work/crates.txt"
(cd "$work/crates/casts_bench" && rt run >"$work/log" 2>&1) || tail -20 "$work/log"
rustc -O "$here/casts.rs" -o "$work/casts"
echo "this repository"
"$work/crates/casts_bench/out/casts_bench"
echo "plain Rust"
"$work/casts"
rm -rf "$work"
