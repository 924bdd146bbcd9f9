#!/bin/sh
# Times three bodies, checked, compiled and run by this repository, beside the same in plain Rust (bodies.rs, built by `rustc -O`): a filter
# of 64 taps, a sigma-delta modulator of second order, and a counter. An operation is a node of an expression or an assignment. The sums
# of a body must agree; each is of the last round of the same samples. program.txt is the source of a throw-away program crate, with its
# proofs in the other texts; it is made in a folder of its own: it is no part of the gate.
set -e
here=$(cd "$(dirname "$0")" && pwd)
top=$here/../..
work=$(mktemp -d)
mkdir -p "$work/crates/bodies_bench/src" "$work/.git"
cp "$top/HANDLES" "$work"
cp "$here/program.txt" "$work/crates/bodies_bench/src/main.rt"
below="tdf_base tdf_fixed tdf_lang_tree tdf_expr tdf_lang_parser"
# These crates, and all that they stand on.
names=$(awk -v want="$below" '
    /^[a-z_]+:/ { name = $1; sub(":", "", name); $1 = ""; deps[name] = $0 }
    END { n = split(want, list); for (i = 1; i <= n; i++) seen[list[i]] = 1
          for (i = 1; i <= n; i++) { m = split(deps[list[i]], more)
              for (k = 1; k <= m; k++) if ((more[k] in deps) && !(more[k] in seen)) { seen[more[k]] = 1; list[++n] = more[k] } }
          for (i = 1; i <= n; i++) print list[i] }' "$top/crates.txt")
for name in $names; do
    mkdir "$work/crates/$name"
    for part in src specs proofs; do
        [ ! -e "$top/crates/$name/$part" ] || cp -R "$top/crates/$name/$part" "$work/crates/$name/"
    done
    grep "^$name:" "$top/crates.txt" >>"$work/crates.txt"
done
echo "bodies_bench: $below" >>"$work/crates.txt"
bench=$work/crates/bodies_bench
mkdir -p "$bench/proofs/put" "$bench/proofs/checked_of" "$bench/proofs/run_turns"
cp "$here/answers_put.txt" "$bench/proofs/put/Answers.antt"
cp "$here/answers_checked_of.txt" "$bench/proofs/checked_of/Answers.antt"
cp "$here/invariants_run_turns.txt" "$bench/proofs/run_turns/Invariants.antt"
(cd "$bench" && rt fmt >"$work/log" 2>&1 && rt run >>"$work/log" 2>&1) || tail -20 "$work/log"
rustc -O "$here/bodies.rs" -o "$work/bodies"
echo "this repository"
"$bench/out/bodies_bench"
echo "plain Rust"
"$work/bodies"
rm -rf "$work"
