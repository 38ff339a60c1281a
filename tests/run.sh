#!/usr/bin/env bash
# Builds the suites against the library for C, and runs them one after the other, on it and on the programs: tests/run.sh [seed] [scale].
# CFLAGS in the environment replaces -O2, as for a build with sanitizers. The last line is 'N passed, M failed', the sum over the suites.
set -eu
cd "$(dirname "$0")/.."
. tests/suites.sh
bash scripts/ready.sh
dir=target/tests
mkdir -p "$dir"

compile() { gcc -std=c11 -D_GNU_SOURCE ${CFLAGS:--O2} -Wall -Wextra -Werror "$@"; }

objects=()
for file in $shared; do
    compile -c "tests/$file.c" -o "$dir/$file.o"
    objects+=("$dir/$file.o")
done

passed=0 failed=0
for suite in $suites; do
    echo "== tests/$suite.c"
    compile "tests/$suite.c" "${objects[@]}" target/lib/libradvoinis.a -o "$dir/$suite"
    status=0
    "$dir/$suite" "$@" >"$dir/$suite.out" || status=$?
    cat "$dir/$suite.out"
    if [[ $(tail -n 1 "$dir/$suite.out") =~ ^([0-9]+)\ passed,\ ([0-9]+)\ failed$ ]]; then
        passed=$((passed + BASH_REMATCH[1])) failed=$((failed + BASH_REMATCH[2]))
        if [ "$status" -ne 0 ] && [ "${BASH_REMATCH[2]}" -eq 0 ]; then failed=$((failed + 1)); fi
    else
        echo "$suite: no closing line"
        failed=$((failed + 1))
    fi
done
echo "$passed passed, $failed failed"
[ "$failed" -eq 0 ]
