#!/bin/sh
# Writes snapshots of some 64 MiB, and reads them: how many bytes, and the milliseconds that each takes.
# program.txt is the source of a throw-away program crate, with its proof in answers_timed.txt; it is made in a folder of its own: it is no
# part of the gate.
set -e
here=$(cd "$(dirname "$0")" && pwd)
top=$here/../..
work=$(mktemp -d)
mkdir -p "$work/crates/snapshots_bench/src" "$work/crates/snapshots_bench/proofs/timed" "$work/.git"
cp "$top/HANDLES" "$work"
cp "$here/program.txt" "$work/crates/snapshots_bench/src/main.rt"
cp "$here/answers_timed.txt" "$work/crates/snapshots_bench/proofs/timed/Answers.antt"
below="tdf_base tdf_saved tdf_save tdf_save_reading"
for name in $below; do
    mkdir "$work/crates/$name"
    for part in src specs proofs; do
        [ ! -e "$top/crates/$name/$part" ] || cp -R "$top/crates/$name/$part" "$work/crates/$name/"
    done
    grep "^$name:" "$top/crates.txt" >>"$work/crates.txt"
done
echo "snapshots_bench: $below" >>"$work/crates.txt"
bench=$work/crates/snapshots_bench
(cd "$bench" && rt fmt >"$work/log" 2>&1 && rt run >>"$work/log" 2>&1) || tail -20 "$work/log"
"$bench/out/snapshots_bench"
rm -rf "$work"
