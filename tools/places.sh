#!/usr/bin/env bash
# Counts in crates/*/src what docs/DESIGN-PASS.md speaks of, a line for each pattern. Usage: tools/places.sh [COMMIT] [-v]; without a commit, in the
# files as they stand; with -v each place is printed too.
set -eu
cd "$(dirname "$0")/.."
commit= verbose=
for word; do case $word in -v) verbose=1 ;; *) commit=$word ;; esac; done

places() { git grep -nE "$1" $commit -- crates | grep '/src/' | sed "s/^${commit:-^}://" || true; }
count() { # POINT WHAT PATTERN
    local found
    found=$(places "$3")
    printf '%s  %4d  %s\n' "$1" "$(printf '%s' "$found" | grep -c '' || true)" "$2"
    [ -z "$verbose" ] || printf '%s\n' "$found" | sed 's/^/        /'
}

count 1 'enums' '^\s*(pub )?enum '
count 1 'constants of one byte' '^\s*(pub )?const [A-Z_]+: u8 ='
count 1 'functions that answer a number, or 0 for none (by their comment)' '^ *// .*(\b1 \+ the (state|index)|or 0[.:]| that applies, or 0)'
count 3 'loops by while or loop' '\b(while|loop) .*\{'
count 4 'casts by as' ' as (usize|u8|u16|u32|u64)\b'
count 4 'functions that compare, choose, widen or copy by hand' '^\s*(pub )?fn (equal|both|least|lesser|greater|wide|wide_key|is_found|is_count|fill|fill_bytes|put_bytes|places|block_end|line_end|status_of|successor_of|is_terminal|drawn_states|digit_of)\b'
count 5 'lines that name in_head as a parameter or a field of a literal' '^\s*(mut )?in_head: &'
count 5 'clauses on how long the tables of a walk are' 'requires (walkable|walkable_into|walkable_out|n_in_bounds|steps_in_bounds|chain_in_bounds|has_places)'
count 5 'clauses on bounds and walks, of one fact or of several' 'requires [a-z_]*(_in_bounds|walkable)[a-z_]* '
count 6 'functions that take a buffer with the place to write at' 'buf: &mut \[u8\], at: usize'
count 6 'lines that name key beside from and to as a parameter or a field of a literal' '^\s*key: &|from: &\[u16\], to: &\[u16\], key: &\[u8\]'
count 7 'matches on mode, form, mark, until, task' 'match (mode|form|mark|until|task)\b'
printf '5  %4d  lengths that requires clauses speak of\n' "$(git grep -hE '^ +requires' $commit -- crates | grep -oE 'length [a-z_.]+\.(now|old)|visited_length [a-z.]+ ≤|Walkable' | grep -c '')"
if [ -n "$commit" ]; then
    answers=$(git ls-tree -r --name-only "$commit" crates | grep 'Answers.antt$')
    lines=$(for f in $answers; do git show "$commit:$f"; done | grep -c '')
else
    answers=$(git ls-files crates | grep "Answers.antt$")
    lines=$(cat $answers | grep -c '')
fi
printf '8  %4d  files of answers, of %d lines\n' "$(printf '%s\n' "$answers" | grep -c '')" "$lines"
printf '2  %4d  pairs of functions that are alike (tools/alike.py)\n' "$(python3 tools/alike.py $commit | tail -1 | cut -d' ' -f1)"
