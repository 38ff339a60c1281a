#!/usr/bin/env bash
# The files that a stranger must believe: for each demand and each public call the files of specs/ that its statement rests on, and the
# number of their lines. Prints a table for docs/PROMISES.md, with --write puts it there, and with --check says whether the page has it.
set -eu
cd "$(dirname "$0")/.."
page=docs/PROMISES.md

# What a statement cites, and what that rests on, file by file, in the crates' order: "crate/File" a line.
believed() { # FILE..
    awk -v wanted="$*" '
        function visit(f,    a, k, m) {
            if (seen[f]++) return
            m = split(uses[f], a, " ")
            for (k = 1; k <= m; k++) visit(a[k])
        }
        FILENAME == "crates.txt" { sub(/#.*/, ""); if (index($0, ":")) { split($0, a, /[ :]/); order[++crates] = a[1] } next }
        FNR == 1 { split(FILENAME, part, "/"); file = part[2] "/" substr(part[4], 1, length(part[4]) - 5); known[++files] = file }
        /^(pub )?use / {    # of the specs alone: the types that Rattle declares stand below specs.declared, and are those of src/
            line = $0
            while (match(line, /Rattle\.[a-z0-9_]+\.specs\.[A-Z][A-Za-z0-9_]*/)) {
                split(substr(line, RSTART, RLENGTH), a, ".")
                uses[file] = uses[file] " " a[2] "/" a[4]
                line = substr(line, RSTART + RLENGTH)
            }
        }
        END {
            count = split(wanted, w, " ")
            for (i = 1; i <= count; i++) visit(w[i])
            for (c = 1; c <= crates; c++) for (i = 1; i <= files; i++) if (seen[known[i]] && index(known[i], order[c] "/") == 1) print known[i]
        }' crates.txt crates/*/specs/[A-Z]*.antt
}

row() { # WHAT FILE..
    local what=$1 found
    shift
    found=$(believed "$@")
    echo "$found" | awk -v what="$what" -F/ '
        {
            text = text ($1 == crate ? ", " : (crate ? "; " : "") "`" $1 "` ") $2
            crate = $1
            path = "crates/" $1 "/specs/" $2 ".antt"
            while ((getline line < path) > 0) lines++
        }
        END { print "| " what " | " text " | " lines " |" }'
}

table() {
    echo "| What | Its statement rests on, below crates/*/specs/ | Lines |"
    echo "| --- | --- | --- |"
    row "demand 1" engine/Runs engine/Promise tables/Fitting tables/Refused
    row "demand 2" engine/Runs engine/Promise tables/Fitting gid/Statuses gid/News
    row "demand 3" engine/Runs tables/Fitting gid/Pruning
    row "as on the earlier work tables" engine/Matching tables/Fitting tables/Earlier
    row "the twelve examples" gid/Examples
    row "dead in two forms" gid/Verdicts
    row '`Engine::update`' engine/Promise tables/Lending
    row '`Graph::status`' tables/Refused
    row '`steplist::find_step`' steplist/Places tables/Listing
    row '`totals::count`' totals/Counting
    row '`audit`' audit/Audited
    row '`Splitter`, `Line`' record/Splitting record/Items
    row '`reader::open`' reader/Opening tables/Lending
    row '`reader::read`' reader/Reading tables/Lending
    row '`Reader::advance`' reader/Advancing tables/Lending
    row '`Reader::{idle, part_of, wants_more}`' reader/Pieces record/Splitting
    row '`writer::write`' writer/Answering
    row "the round trip" writer/Answering writer/Rereading tables/Fitting
    row '`Lister::{begin, list}`, call by call' report/Lister tables/Lending
    row "the listing of an input" report/Progress report/Listing
    row '`Drawer::{begin, draw}`, call by call' picture/Drawer tables/Lending
    row "the picture of an input" picture/Progress picture/Picture
    row '`enumeration::enumerate`' enumeration/Lines
    row "the small histories, which and in which order" enumeration/Small enumeration/Ranking enumeration/Counting
    row "a small history, sent to the engine" enumeration/Small enumeration/Sending
    row '`Streams::serve`' streams/Serving
    row '`Streams::drive`' streams/Driving tables/Lending
    row '`query::status_after`' query/Answering tables/Lending
    row '`radvoinis_update`, `radvoinis_audit`' capi/Calls
    row '`radvoinis_state_status`' capi/Calls tables/Refused
    row '`radvoinis_write`' capi/Calls writer/Answering
    row '`radvoinis_status`' query/Answering
}

if [ "${1:-}" = --write ]; then
    written=$(awk -v table="$(table)" '/^\| What \| Its statement/ { print table; inside = 1 } !/^\|/ { inside = 0 } !inside' "$page")
    echo "$written" >"$page"
elif [ "${1:-}" = --check ]; then
    table | while IFS= read -r line; do
        grep -qxF -e "$line" "$page" || { echo "$page lacks: $line" && exit 1; }
    done
else
    table
fi
