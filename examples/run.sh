#!/usr/bin/env bash
# Lists a sample record at once, by the listing program run without a proof. Then proves and builds the programs and the library for C,
# lists and draws the sample records, and runs the examples in C. With --check the outputs are held to the stored ones, and that is all.
set -eu
cd "$(dirname "$0")/.."

# The kit runs the program from its source, in some twenty seconds, and what it writes is held to the listing shown.
first_look() {
    local listing said
    said=$(mktemp)
    listing=$(cd crates/listing && rt try <stdin 2>"$said" && echo .) || { cat "$said" && rm "$said" && return 1; }
    rm "$said"
    printf %s "${listing%.}" | diff crates/listing/stdout -
    echo "== crates/listing/stdin, a record"
    cat crates/listing/stdin
    echo "== its listing"
    cat crates/listing/stdout
    echo "== nothing is proved by this run; what is not proved yet follows, crate by crate"
}

[ "${1:-}" = --check ] || first_look
bash scripts/ready.sh
for program in story explorer; do
    gcc -std=c11 -O2 -Wall -Wextra -Werror -Iinclude "examples/$program.c" target/lib/libradvoinis.a -o "target/$program"
done

# The verdicts of each sample record's first states, and of one out of range.
verdicts() { target/explorer 0 1 2 2048 <"$1"; }

if [ "${1:-}" = --check ]; then
    for record in examples/*.record; do
        target/bin/listing <"$record" | diff "${record%.record}.listing" -
        target/bin/draw <"$record" | diff "${record%.record}.dot" -
        verdicts "$record" | diff "${record%.record}.verdicts" -
    done
    target/story | diff examples/story.expected -
    for argument in '' x -1 +1 ' 1' 1x 0x1 4294967296 99999999999999999999; do    # what is no state number is refused, and no verdict given
        status=0
        said=$(target/explorer 0 "$argument" <examples/ring_after.record 2>/dev/null) || status=$?
        [ "$status" -eq 2 ] && [ -z "$said" ] || { echo "explorer took '$argument' for a state" && exit 1; }
    done
else
    for record in examples/*.record; do
        echo "== $record"
        target/bin/listing <"$record"
        target/bin/draw <"$record"
        echo "== examples/explorer.c"
        verdicts "$record"
    done
    echo "== examples/story.c"
    target/story
fi
