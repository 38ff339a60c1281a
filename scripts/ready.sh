#!/usr/bin/env bash
# Makes ready what is installed, and what the tests, the benchmark and the examples run: the programs listing, draw and histories in
# target/bin, and the library for C, target/lib/libradvoinis.a. Proves and builds what is missing or older than its sources, with a line
# for each crate as it is proved; silent where there is nothing to do.
#
# The gate calls it right after an `rt ci` that passed, and then says so: with --after-ci the programs are those that `rt ci` built. With
# --after-ci anew, where no crate had an out/ before that run, the library is built over the crates that it proved, too.
set -euo pipefail
cd "$(dirname "$0")/.."
programs="listing draw histories"
exports="capi capi_record"    # the static libraries whose calls the library has, an object each, beside the short calls in C
library=target/lib/libradvoinis.a
after_ci=${1:-} anew=${2:-}
kit=$(dirname "$(rt doc)")
version=$(rt version)
log=$(mktemp)
trap 'rm -f "$log"' EXIT

# Crates and what they depend on in this repository, each behind those that it uses: the order in which rt takes them.
reached() { # NAME..
    awk -v names="$*" '
        function visit(n,    a, k, m) {
            if (!(n in deps) || seen[n]++) return
            m = split(deps[n], a, " ")
            for (k = 1; k <= m; k++) visit(a[k])
            print n
        }
        { sub(/#.*/, ""); if (i = index($0, ":")) { split(substr($0, 1, i - 1), head, " "); deps[head[1]] = substr($0, i + 1) } }
        END { count = split(names, wanted, " "); for (i = 1; i <= count; i++) visit(wanted[i]) }' crates.txt
}

# A sum of all that crates are built from: the kit, this script, and the files of these crates and of those below them.
made_from() { # NAME..
    {
        echo "$version"
        sha256sum scripts/ready.sh crates.txt
        for crate in $(reached "$@"); do
            find "crates/$crate" \( -path "crates/$crate/out" -o -path "crates/$crate/must-fail" \) -prune -o -type f -print0
        done | sort -z | xargs -0 sha256sum
    } | sha256sum
}

# What was built keeps a stamp: what it was made from, and itself.
stamp() { # FILE MADE-FROM
    echo "$2" && sha256sum "$1"
}
is_ready() { # FILE MADE-FROM
    [ -f "$1" ] && stamp "$1" "$2" | cmp -s - "target/stamp/${1##*/}"
}

# Names each crate as it is proved, with the time that it took and how many are left at most: rt says nothing of one that is unchanged.
tell() { # CRATE
    local line name=$1 began=$SECONDS left
    while IFS= read -r line; do
        case $line in
        "rt: chose --jobs "*) name=${line##* } began=$SECONDS ;;
        "logic=proved "*)
            left=$(awk -v name="$name" '$1 == name { at = NR } END { print NR - at }' <<<"$order")
            [ "$left" -eq 0 ] && left=none || left="at most $left"
            echo "proved $name, $((SECONDS - began)) s; $left left"
            ;;
        esac
    done
}

# Runs a command in a crate's folder, and tells what it proves. Where it fails, shows what it printed.
prove() { # CRATE COMMAND..
    (cd "crates/$1" && "${@:2}") 2>&1 | tee "$log" | tell "$1" || {
        cat "$log" >&2
        return 1
    }
}

# rt builds a program where it runs it.
build_program() { if [ -f stdin ]; then rt run <stdin; else rt run </dev/null; fi >/dev/null; }

# As `rt lib` does for a static library, but over the libraries that `rt ci` proved from nothing and left in out/, which rt itself does not
# take up: so the crate alone is proved once more, from nothing, and not all that it stands on.
build_over_ci() { # CRATE
    local name words=(--crate-name "$1" src/lib.rt --crate-type staticlib --extern "std=$kit/rlibs/std.rlib" -L "dependency=$kit/rlibs")
    for name in $(sed -n "s/^$1\>[^:#]*:\([^#]*\).*/\1/p" crates.txt); do words+=(--extern "$name=../$name/out/rlib/$name.rlib"); done
    for name in $(reached "$1" | grep -vx "$1"); do words+=(-L "dependency=../$name/out/rlib"); done
    mkdir -p "crates/$1/out"
    prove "$1" "$kit/bin/rattle" build "${words[@]}" --antt-project "$kit/rattle/logic/antt-project.json" \
        --logic-built "$kit/logic_built" --toolchain "$kit/toolchain" --backend llvm --links "$1=" --jobs 2 -o "out/lib$1.a"
}

stale=
declare -A sums
for program in $programs; do
    sums[$program]=$(made_from $program)
    is_ready target/bin/$program "${sums[$program]}" || stale+="$program "
done
sums[library]=$({ made_from $exports && sha256sum c/* include/*; } | sha256sum)
is_ready $library "${sums[library]}" || stale+=$exports
order=$(reached $stale)
mkdir -p target/bin target/stamp

for program in $programs; do
    [[ " $stale " == *" $program "* ]] || continue
    if [ "$after_ci" != --after-ci ]; then prove $program build_program; fi
    install -m 755 crates/$program/out/$program target/bin/$program
    stamp target/bin/$program "${sums[$program]}" >target/stamp/$program
done

if [[ $stale == *"$exports" ]]; then
    for crate in $exports; do
        if [ "$anew" = anew ] && build_over_ci $crate; then continue; fi
        prove $crate rt lib
    done
    rm -rf target/lib
    mkdir -p target/lib
    for crate in $exports; do
        (cd target/lib && ar x ../../crates/$crate/out/lib$crate.a $crate.o)
        # Aligned, or the time of a new step turns on where the linker happens to put the loop over the step list, by up to a third; and
        # that of a short call, below, by up to a quarter.
        objcopy --set-section-alignment '.text.radvoinis_*=64' target/lib/$crate.o
    done
    gcc -std=c11 -O2 -fPIC -falign-functions=64 -Wall -Wextra -Werror -Iinclude -c c/tables.c -o target/lib/tables.o
    ar rcsD $library target/lib/*.o
    stamp $library "${sums[library]}" >target/stamp/libradvoinis.a
    echo "built $library"
fi
