#!/usr/bin/env bash
# Times the radix passes, and building and probing, beside the same in plain Rust: bench/radix.sh [ROWS], ten million by
# default for the passes alone. Of the passes both programs print the least times of several rounds in microseconds,
# and the same checksums of the rows. Of the joins it prints a table (bench/radix/compare.py).
#
# The program that it times calls the crates as `radixjoin` does. Nobody uses it and no contract needs it, so it is no crate
# of crates.txt, which the gate proves: its sources stand in bench/radix/program, with the further ending .in, and it is
# proved and built here, in a copy of the crates.
set -e
cd "$(dirname "$0")/.."
rows=${1:-10000000}
copy=$(mktemp -d)
trap 'rm -rf "$copy"' EXIT
git ls-files -z crates HANDLES | xargs -0 cp --parents -t "$copy"
{ cat crates.txt; echo "radix_bench: rj_columns rj_condition rj_radix rj_hashjoin"; } >"$copy/crates.txt"
(cd bench/radix/program && find . -type f) | while read -r file; do
    mkdir -p "$copy/crates/radix_bench/$(dirname "$file")"
    cp "bench/radix/program/$file" "$copy/crates/radix_bench/${file%.in}"
done
mkdir -p bench/data
(cd "$copy/crates/radix_bench" && rt run) >bench/data/radix_bench.log
cp "$copy/crates/radix_bench/out/radix_bench" bench/data/
rustc -O -o bench/data/plain_radix bench/radix/plain_radix.rs
rustc --edition 2021 -O -o bench/data/plain_radix_join bench/radix/plain_join.rs
echo "radix_bench"
bench/data/radix_bench passes "$rows"
echo "plain Rust"
bench/data/plain_radix "$rows"
python3 bench/radix/compare.py bench/data/radix_bench bench/data/plain_radix_join
