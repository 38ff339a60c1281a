#!/usr/bin/env bash
# The benchmark, in one command: builds it, prints its tables, and writes the same to bench/RESULTS.md, or to the file named.
set -eu
cd "$(dirname "$0")/.."
bash scripts/ready.sh
mkdir -p target/bench/records
page=${1:-bench/RESULTS.md}
flags="-std=c11 -D_GNU_SOURCE -Wall -Wextra -Werror"
clang=$(dirname "$(rt doc)")/toolchain/bin/clang

compile() { gcc $flags -O2 "$@"; }

# The count of the totals has no call in the library for C. For the benchmark alone it gets one, in a crate that is proved and built in a
# repository of its own over copies of the crates here. It lies outside this one, where the gate takes a source file in no listed crate
# for one that nothing proves.
tree=$(mktemp -d)
trap 'rm -rf "$tree"' EXIT
mkdir -p "$tree"/crates/timed/src
tar -C crates --exclude={gid,tables,totals}/out -c gid tables totals | tar -C "$tree/crates" -x
{ grep -E '^(gid|tables|totals):' crates.txt && echo 'timed staticlib: gid tables totals'; } >"$tree/crates.txt"
cat >"$tree/crates/timed/src/lib.rt" <<'END'
// The count of the totals as a call for C.
#![tactic(auto)]

#[unsafe(no_mangle)]
pub extern "C" fn proved_totals(
    n: usize,
    status: &[u8],
    open: &mut usize,
    unknown: &mut usize,
    live: &mut usize,
    dead: &mut usize,
) {
    let totals = totals::count(n, status);
    *open = totals.open;
    *unknown = totals.unknown;
    *live = totals.live;
    *dead = totals.dead;
}
END
(cd "$tree/crates/timed" && rt lib) >target/bench/timed.log 2>&1 || { cat target/bench/timed.log && exit 1; }

for file in baseline counts members naive otherwise page; do compile -c bench/$file.c -o target/bench/$file.o; done
compile -DCOUNT_MOVES -c bench/baseline.c -o target/bench/counted.o
gcc $flags -O3 -Dbaseline_update=gcc3_update -c bench/baseline.c -o target/bench/gcc3.o
gcc $flags -O3 -Dbaseline_totals=gcc3_totals -c bench/counts.c -o target/bench/gcc3_counts.o
# The kit's clang has no headers of its own: gcc's have what the files need.
for file in baseline counts; do
    "$clang" $flags -O3 -isystem "$(gcc -print-file-name=include)" -Dbaseline_update=clang_update -Dbaseline_totals=clang_totals \
        -c bench/$file.c -o target/bench/clang_$file.o
done
compile -DCLANG_VERSION="\"$("$clang" -dumpversion)\"" bench/bench.c target/bench/{baseline,clang_baseline,gcc3,counted,members,naive,page}.o \
    target/lib/libradvoinis.a -o target/bench/bench
compile bench/listing.c target/bench/{baseline,counts}.o -o target/bench/listing
compile bench/listings.c target/bench/page.o -o target/bench/listings
compile bench/totals.c target/bench/{counts,clang_counts,gcc3_counts,otherwise,page}.o "$tree/crates/timed/out/libtimed.a" -o target/bench/totals
target/bench/bench "$page"
target/bench/listings target/bin/listing target/bench/listing target/bench/records "$page"
target/bench/totals "$page"
