#!/usr/bin/env bash
# Plants faults in the calls and the programs in plain C (the engine of bench/baseline.c; tests/calls.c, tests/lister.c, tests/drawer.c
# and tests/enumerator.c over the naive definitions; the short calls of c/tables.c), one at a time, and runs the suite that must catch
# them on each, shortened: it must, and each suite must pass what has no fault. With names of suites as arguments, those faults alone;
# with --few, twenty-eight of all suites. All take about fifteen minutes, the few one. The last line is 'N passed, M failed'.
set -u
cd "$(dirname "$0")/.." || exit 2
. tests/suites.sh
only_few=
if [ "${1:-}" = --few ]; then only_few=1 && shift; fi
wanted=" ${*:-$suites} "
dir=target/faults bin=target/faults/bin
rm -rf "$dir"
mkdir -p "$dir"/{suites,library,lister,drawer,enumerator,bin}
flags="-std=c11 -D_GNU_SOURCE -O2 -w -Ibench -Iinclude -Itests"

passed=0 failed=0

# Compiles a copy that faults are planted in.
compile() { gcc $flags -Dbaseline_update=radvoinis_update -c "$dir/$1" -o "$dir/${1%.c}.o"; }

for file in $wanted $shared; do
    gcc $flags -c tests/$file.c -o "$dir/suites/$file.o" || exit 2
done
cp bench/baseline.c c/tables.c tests/{calls,fitting,reading,writing,reference}.c "$dir/library/"
cp tests/{lister,standard,reading,reference}.c "$dir/lister/"
cp tests/{drawer,standard,drawing,fitting,reading,reference}.c "$dir/drawer/"
cp tests/{enumerator,standard,enumerating,reading,reference}.c "$dir/enumerator/"
for file in $(cd "$dir" && echo {library,lister,drawer,enumerator}/*.c); do
    compile $file || exit 2
done

# Builds the suite on the copies, and runs it up to the first group that fails. The library shows its calls alone: the suite has
# definitions of its own.
run() { # SUITE
    ld -r "$dir"/library/*.o -o "$dir/library.o" && objcopy --wildcard --keep-global-symbol='radvoinis_*' "$dir/library.o" || return
    gcc "$dir"/lister/*.o -o "$bin/listing" && gcc "$dir"/drawer/*.o -o "$bin/draw" && gcc "$dir"/enumerator/*.o -o "$bin/histories" || return
    gcc "$dir/suites/$1.o" $(printf "$dir/suites/%s.o " $shared) "$dir/library.o" -o "$dir/$1" || return
    LISTING=$bin/listing DRAW=$bin/draw HISTORIES=$bin/histories "$dir/$1" 1 0 stop 2>"$dir/progress"
}

tell() { # VERDICT NAME
    if [ "$1" = ok ]; then passed=$((passed + 1)); else failed=$((failed + 1)); fi
    echo "$1: $2"
}

# One fault: a sed script on one of the copies, which must change it. Those with few=1 are planted with --few too.
fault() { # NAME SCRIPT [FILE] [SUITE]
    local file=${3:-library/baseline.c} suite=${4:-harness} out=$dir/out
    [[ $wanted == *" $suite "* ]] || return
    [ -z "$only_few" ] || [ -n "${few:-}" ] || return
    cp "$dir/$file" "$dir/plain"
    sed -i "$2" "$dir/$file"
    if cmp -s "$dir/$file" "$dir/plain"; then tell "NOT PLANTED" "$1" && return; fi
    { compile $file && run "$suite"; } >"$out"
    case $(tail -n 1 "$out") in
    *" passed, 0 failed") tell "NOT CAUGHT" "$1" ;;
    *" failed") tell ok "$1 ($suite, $(sed -n 's/^FAILED: //p' "$out"))" ;;
    *) tell "NOT BUILT" "$1" ;;
    esac
    cp "$dir/plain" "$dir/$file"
    compile $file
}

call_fault() { fault "$1" "$2" library/calls.c "${3:-harness}"; }
fitting_fault() { fault "$1" "$2" library/fitting.c damage; }
short_fault() { fault "$1" "$2" library/tables.c short_calls; }
writing_fault() { fault "$1" "$2" library/writing.c buffers; }
status_fault() { fault "$1" "$2" library/reading.c records; }
listing_fault() { fault "$1" "$2" "lister/${3:-reading}.c" records; }
reading_fault() { # in the status call and in the listing program
    status_fault "$1: status" "$2"
    listing_fault "$1: listing" "$2"
}
drawing_fault() { fault "$1" "$2" "drawer/${3:-drawing}.c" drawings; }
history_fault() { fault "$1" "$2" "enumerator/${3:-enumerating}.c" histories; }
program_fault() { # in both programs that read a record
    listing_fault "$1: listing" "$2" standard
    drawing_fault "$1: draw" "$2" standard
}
any_program_fault() { # in each program
    program_fault "$1" "$2"
    history_fault "$1: histories" "$2" standard
}

# A script for the lines of one function.
within() { echo "/^[a-z].*[ *]$1(/,/^}/ { $2; }"; }

for suite in $wanted; do
    case $(run $suite | tail -n 1) in
    *" passed, 0 failed") tell ok "no fault: $suite" ;;
    *) tell "FALSE ALARM" "no fault: $suite" ;;
    esac
done

# verdicts
fault "turns every update away" 's/    if (number) return REFUSED + (uint32_t)number;/    return REFUSED + 9;/'
fault "says open for ever" 's/return settle(e, spread(e, LIVE_SOURCES, u), LIVE);/return 0;/; s/return find_dead(e, u);/return e->status[u] = OPEN, 0;/'
fault "returns its tables untouched" 's/    if (kind == .E.) return send_step(.*/    return 0;/'
fault "judges the first step and then echoes" 's/^    if (\*steps > limit).*/&\n    if (*steps > 0) return 0;/'
few=1 fault "a ring is dead although a step leads out of it" 's/    rescue(e, escapes(e, span.len));//'
fault "no rescue of those behind an escape" 's/rescue(e, escapes(e, span.len))/escapes(e, span.len)/'
fault "tries one step out of a state whose successor died" "$(within way_out 's/if (leads_out(e, e->to\[p - 1\])) return p;/return leads_out(e, e->to[p - 1]) ? p : 0;/')"
fault "a way out to an unknown state does not count" "$(within leads_out 's/ || e->status\[y\] == UNKNOWN//')"
fault "a way out among the visited counts" "$(within leads_out 's/!is_visited(e, y) \&\& //')"
fault "live does not spread to the predecessors" 's/spread(e, LIVE_SOURCES, u)/admit(e, (Span){0, u, u}, u)/'
fault "live spreads to unknown predecessors alone" 's/return e->status\[y\] != LIVE;/return e->status[y] == UNKNOWN;/'
fault "a step into a live state settles nothing" 's/return e->status\[v\] == LIVE ? make_live(e, u) : 0;/return 0;/'
fault "a close of a live state changes it" "$(within close_state 's/    if (e->status\[u\] == LIVE) return 0;//')"
fault "a live state is news again" "$(within make_live 's/    if (e->status\[u\] == LIVE) return 0;//')"
fault "a step to itself is a way out" "$(within close_state 's/    e->status\[u\] = UNKNOWN;//; s/near_escape(e, u);/near_escape(e, u); e->status[u] = UNKNOWN;/')"
fault "a long chain of successors is taken for a way out" "$(within meets_open 's/ || left == 0) return 0;/) return 0; if (left == 0) return 1;/')"
fault "an unseen state stays unseen" 's/    if (e->status\[s\] == UNSEEN) e->status\[s\] = OPEN;//'
fault "a closed state has no verdict until the next update" "$(within find_dead 's/return settle(e, span, DEAD);/settle(e, span, DEAD); return 0;/')"

# news
fault "news falling" 's/for (size_t s = span.low; s <= span.high; s = skip_unvisited(e, s)) {/for (size_t s = span.high + 1; s-- > span.low;) {/'
fault "last news missing" "$(within settle 's/s <= span.high/s < span.high/')"
fault "an entry of visited marks is left behind the first of them" "$(within skip_unvisited 's/ == 0 ?/ >= 0 ?/')"
fault "the first state behind an entry without marks is passed over" "$(within skip_unvisited 's/(s | 15) + 1/(s | 15) + 2/')"
fault "two entries are passed over where one has no mark" "$(within skip_unvisited 's/(s | 15)/(s | 31)/')"
fault "greatest state forgotten" 's/y > span.high ? y : span.high/span.high/'
fault "writes behind the news" "$(within settle 's/return count;/if (count < e->n) e->news[count] = 0; return count;/')"
fault "one news too many" "$(within settle 's/return count;/return count > 1 ? count + 1 : count;/')"

# tables
fault "a successor stays behind a verdict" 's/        e->successor\[s\] = NO_SUCCESSOR;//'
fault "successor one too high" 's/e->successor\[u\] = (uint16_t)(p - 1);/e->successor[u] = (uint16_t)p;/'
fault "successor of an escape one too high" 's/release(e, x, p - 1, released)/release(e, x, p, released)/'
fault "successor of a rescued state one too high" 's/release(e, y, p - 1, released)/release(e, y, p, released)/'
fault "successor kept in a byte" 's/e->successor\[u\] = (uint16_t)(p - 1);/e->successor[u] = (uint8_t)(p - 1);/'
fault "queue kept in bytes" 's/e->queue\[span.len\] = (uint16_t)y;/e->queue[span.len] = (uint8_t)y;/'
fault "places kept in twelve bits" 's/head\[v\] = (uint16_t)(p + 1);/head[v] = (p + 1) % 4096;/'
fault "visited stays behind a verdict" "$(within settle 's/        clear_visited(e, s);//')"
fault "visited stays behind a release" "$(within release 's/    clear_visited(e, x);//')"
few=1 fault "clearing a visited mark clears its whole entry" "$(within clear_visited 's/ &= .*;/ = 0;/')"
fault "clearing a visited mark clears the next one too" "$(within clear_visited 's/~(1u/~(3u/')"
fault "clearing a visited mark clears those before it too" "$(within clear_visited 's/~(1u << s % 16)/~((2u << s % 16) - 1)/')"
fault "setting a visited mark clears the others of its entry" "$(within set_visited 's/ |= / = /')"
fault "setting a visited mark sets the next one too" "$(within set_visited 's/(1u/(3u/')"
fault "a visited mark is set where another is read" "$(within set_visited 's/s % 16)/15 - s % 16)/')"
fault "two states have one visited mark" 's/1u << s % 16/1u << s % 8/; s/>> s % 16/>> s % 8/'
fault "the first state of an entry has its visited mark in the one before" 's/e->visited\[s \/ 16\]/e->visited[(s > 0 ? s - 1 : 0) \/ 16]/'
fault "the last, partly used entry is out of range" 's/e->visited\[s \/ 16\]/e->visited[s \/ 16 + (s \/ 16 == e->n \/ 16)]/'
fault "a step into the wrong list" 's/push(e->in_head, e->in_next, v, p);/push(e->in_head, e->in_next, u, p);/'
fault "a step out of the wrong list" 's/push(e->out_head, e->out_next, u, p);/push(e->out_head, e->out_next, v, p);/'
fault "a step to itself is not listed" "$(within step 's/    size_t p = e->steps++;/    if (u == v) return name(e, u), 0; size_t p = e->steps++;/')"
fault "a step does not name its target" "$(within step 's/    name(e, v);//')"
fault "no terminal mark" 's/    e->marks\[u\] |= TERMINAL;//'
fault "no closed mark" 's/    e->marks\[u\] |= CLOSED;//'
fault "a mark clears the bits above 4" 's/e->marks\[s\] |= NAMED;/e->marks[s] = (e->marks[s] \& 7) | NAMED;/'
fault "a mark byte above 7 is read as closed" 's/e->marks\[u\] & CLOSED/e->marks[u] >= CLOSED/'
fault "no key is kept" 's/    e->key\[p\] = (uint8_t)key;//'
few=1 fault "the key of the step before is kept" 's/    e->key\[p\] = (uint8_t)key;/    e->key[p] = p > 0 ? e->key[p - 1] : (uint8_t)key;/'
fault "a key is kept in four bits" 's/    e->key\[p\] = (uint8_t)key;/    e->key[p] = key % 16;/'
fault "a key is kept one place too far" 's/    e->key\[p\] = (uint8_t)key;/    e->key[p + 1 < e->limit ? p + 1 : p] = (uint8_t)key;/'
fault "the place behind the list is cleared" 's/    e->key\[p\] = (uint8_t)key;/&\n    if (p + 1 < e->limit) e->key[p + 1] = 0;/'
fault "a step equal but for its key takes no place" "$(within step 's/    size_t p = e->steps++;/    if (e->steps > 0 \&\& e->from[e->steps - 1] == u \&\& e->to[e->steps - 1] == v \&\& e->key[e->steps - 1] != key) return 0; size_t p = e->steps++;/')"
fault "a terminal mark counts as a step" 's/\*steps = e.steps;/*steps = e.steps + (kind == 84 \&\& answer < REFUSED);/'
fault "a step does not count" 's/    \*steps = e.steps;//'
fault "writes behind the queue" "$(within spread 's/    Span span =/    e->queue[e->n] = 0; Span span =/')"
fault "reads behind the statuses" "$(within spread 's/    Span span =/    if (e->status[e->n] == 77) return (Span){0, 1, 0}; Span span =/')"
fault "writes before the marks" "$(within settle 's/    size_t count = 0;/    size_t count = 0; e->marks[-1] = 0;/')"

# refusals
few=1 fault "a refusal names its state" 's/    if (number) return REFUSED + (uint32_t)number;/    if (number \&\& first < e->n) e->marks[first] |= NAMED;\n&/'
fault "a refusal counts a step" 's/    if (e->steps == e->limit) return REFUSED + 9;/    if (e->steps == e->limit) return e->steps++, REFUSED + 9;/'
fault "a 9 names its states" 's/    if (e->steps == e->limit) return REFUSED + 9;/    if (e->steps == e->limit) return repeat(e, u, v), REFUSED + 9;/'
fault "9 with a place free" 's/if (e->steps == e->limit) return REFUSED + 9;/if (e->steps + 1 >= e->limit) return REFUSED + 9;/'
fault "no 9" 's/    if (e->steps == e->limit) return REFUSED + 9;//'
fault "9 before 6" "$(within send 's/^    int number/    if (kind == 69 \&\& first < e->n \&\& second < e->n \&\& key <= MAX_KEY \&\& e->steps == e->limit \&\& !is_repeat(e, first, second, key)) return REFUSED + 9;\n&/')"
fault "9 for a terminal mark" "$(within refused_terminal 's/return refused_source(e, u);/return e->steps == e->limit ? 9 : refused_source(e, u);/')"
fault "6 before 5" "$(within refused_step 's/    if (u >= e->n || v >= e->n) return 5;/    if (u >= e->n) return 5; if (e->marks[u] \& CLOSED) return 6; if (v >= e->n) return 5;/')"
fault "6 for a close again" "$(within refused_close 's/return u >= e->n ? 5 : 0;/return u >= e->n ? 5 : e->marks[u] \& CLOSED ? 6 : 0;/')"
few=1 fault "7 still given" "$(within refused_close 's/return u >= e->n ? 5 : 0;/return u >= e->n ? 5 : e->marks[u] \& CLOSED ? 7 : 0;/')"
fault "a second close is judged again" "$(within close_state 's/    if (e->marks\[u\] & CLOSED) return 0;//')"
fault "a second close turns a live state unknown" "$(within close_state 's/    if (e->marks\[u\] & CLOSED) return 0;/    if (e->marks[u] \& CLOSED) return e->status[u] = UNKNOWN, 0;/')"
fault "a second close turns a dead state unknown" "$(within close_state 's/    if (e->marks\[u\] & CLOSED) return 0;/    if (e->marks[u] \& CLOSED) return e->status[u] == DEAD ? e->status[u] = UNKNOWN, 0 : 0;/')"
fault "a second close is news again" "$(within close_state 's/    if (e->marks\[u\] & CLOSED) return 0;/    if (e->marks[u] \& CLOSED) return e->news[0] = (uint16_t)u, 1;/')"
fault "a second close sets the named mark" "$(within close_state 's/    if (e->marks\[u\] & CLOSED) return 0;/    if (e->marks[u] \& CLOSED) return e->marks[u] |= NAMED, 0;/')"
fault "a second close is told by the status" "$(within close_state 's/    if (e->marks\[u\] & CLOSED) return 0;/    if (e->status[u] == UNKNOWN || e->status[u] == DEAD) return 0;/')"
few=1 fault "8 still given" "$(within refused_source 's/? 6 : 0/? 6 : e->status[u] == DEAD ? 8 : 0/')"
fault "6 by the status" "$(within refused_source 's/e->marks\[u\] & CLOSED/e->marks[u] \& CLOSED || e->status[u] == DEAD/')"
fault "5 for the second state of a terminal mark" "s/kind == 'T' ? refused_terminal(e, first)/kind == 'T' ? (second >= e->n ? 5 : refused_terminal(e, first))/"
few=1 fault "a key is cut to a byte before it is tested" 's/key > MAX_KEY/(uint8_t)key > MAX_KEY/'
fault "keys in sixteen bits" 's/key > MAX_KEY/(uint16_t)key > MAX_KEY/'
fault "keys in thirty-two bits" 's/key > MAX_KEY/(uint32_t)key > MAX_KEY/'
fault "32 is a key" 's/key > MAX_KEY/key > MAX_KEY + 1/'
fault "31 is no key" 's/key > MAX_KEY/key >= MAX_KEY/'
fault "no 14" 's/    if (key > MAX_KEY) return 14;//'
fault "a refused key is kept" 's/    if (key > MAX_KEY) return 14;/    if (key > MAX_KEY) return e->steps < e->limit ? e->key[e->steps] = (uint8_t)key : 0, 14;/'
fault "14 before 5" "$(within refused_step '/return 14;/d; s/    if (u >= e->n || v >= e->n) return 5;/    if (key > MAX_KEY) return 14;\n&/')"
fault "6 before 14" "$(within refused_step '/return 14;/d; s/    return refused_source(e, u);/    return refused_source(e, u) ? 6 : key > MAX_KEY ? 14 : 0;/')"
fault "9 before 14" "$(within refused_step 's/    if (key > MAX_KEY) return 14;/    if (key > MAX_KEY \&\& e->steps == e->limit \&\& !(e->marks[u] \& CLOSED)) return 9;\n&/')"
fault "14 for a terminal mark" "s/kind == 'T' ? refused_terminal(e, first)/kind == 'T' ? (first < e->n \&\& key > MAX_KEY ? 14 : refused_terminal(e, first))/"
fault "14 for a close" "s/: refused_close(e, first)/: first < e->n \&\& key > MAX_KEY ? 14 : refused_close(e, first)/"
fault "n itself is a state" 's/u >= e->n || v >= e->n/u > e->n || v > e->n/'
fault "states in sixteen bits" 's/u >= e->n || v >= e->n/(uint16_t)u >= e->n || (uint16_t)v >= e->n/'
fault "states in thirty-two bits" "$(within refused_close 's/return u >= e->n/return (uint32_t)u >= e->n/')"
fault "2,049 states" 's/n > MAX_STATES/n > MAX_STATES + 1/'
fault "2,047 states at most" 's/n > MAX_STATES/n >= MAX_STATES/'
fault "no states" 's/if (n == 0 || /if (/'
fault "n in thirty-two bits" 's/n == 0 || n > MAX_STATES/n == 0 || (uint32_t)n > MAX_STATES/'
fault "8,193 steps" 's/limit > MAX_STEPS/limit > MAX_STEPS + 1/'
fault "limit 0" 's/if (limit == 0 || /if (/'
fault "limit before n" 's/^    if (n == 0 .*/    if (limit == 0 || limit > MAX_STEPS) return REFUSED + 2;\n&/'
fault "steps in thirty-two bits" 's/if (\*steps > limit)/if ((uint32_t)*steps > limit)/'
fault "as many steps as the limit are too many" 's/if (\*steps > limit)/if (*steps >= limit)/'
fault "4 before 3" 's/^    if (status_len < n .*/    if (*steps > limit) return REFUSED + 4;\n&/'
for table in status marks successor news in_head out_head queue; do
    fault "$table too short by one" "s/${table}_len < n\b/${table}_len + 1 < n/"
done
fault "visited too short by one" 's/visited_len < (n/visited_len + 1 < (n/'
few=1 fault "n/16 rounded down is enough" 's/visited_len < (n + 15)/visited_len < (n)/'
fault "n/16 rounded to the nearest is enough" 's/visited_len < (n + 15)/visited_len < (n + 8)/'
fault "an entry for each state is asked for" 's/visited_len < (n + 15) \/ 16/visited_len < n/'
fault "an entry more is asked for where all are full" 's/visited_len < (n + 15)/visited_len < (n + 16)/'
for table in from to key in_next out_next; do
    fault "$table too short by one" "s/\b${table}_len < limit/${table}_len + 1 < limit/"
done
fault "a table may not be just long enough" 's/queue_len < n/queue_len <= n/'
fault "any other kind is a close" 's/^    if (kind != .E. .*//'
fault "11 before 1" 's/^    if (n == 0 .*/    if (kind != 69 \&\& kind != 84 \&\& kind != 67) return REFUSED + 11;\n&/'
fault "5 before 11" 's/^    if (kind != .E. .*/    if (kind != 69 \&\& kind != 84 \&\& kind != 67) return REFUSED + (first >= n ? 5 : 11);/'

# steps that come again. Which of several equal places is found no call tells.
repeats="    if (is_repeat(e, u, v, key)) return (uint32_t)repeat(e, u, v);"
few=1 fault "9 for a repeat where the list is full" "$(within send_step "/REFUSED + 9;/d; s/^$repeats/    if (e->steps == e->limit) return REFUSED + 9;\n&/")"
fault "a repeat takes a place" "s/^$repeats/    if (e->steps == e->limit \&\& is_repeat(e, u, v, key)) return (uint32_t)repeat(e, u, v);/"
fault "a repeat counts as a step" "$(within repeat 's/    return 0;/    if (e->steps < e->limit) ((Engine *)e)->steps++;\n&/')"
fault "a new step where the list is full is taken for a repeat" 's/    if (e->steps == e->limit) return REFUSED + 9;/    if (e->steps == e->limit) return (uint32_t)repeat(e, u, v);/'
fault "where the list is full every step between named states is a repeat" "s/^$repeats/    if (is_repeat(e, u, v, key) || (e->steps == e->limit \&\& e->marks[u] \& e->marks[v] \& NAMED)) return (uint32_t)repeat(e, u, v);/"
fault "a repeat from a closed state is accepted" "$(within send 's/^    int number/    if (kind == 69 \&\& first < e->n \&\& second < e->n \&\& key <= MAX_KEY \&\& is_repeat(e, first, second, key)) return (uint32_t)repeat(e, first, second);\n&/')"
fault "6 for a step from a live state where the list is full" "$(within refused_step 's/    return refused_source(e, u);/    return refused_source(e, u) || (e->status[u] == LIVE \&\& e->steps == e->limit) ? 6 : 0;/')"
fault "a repeat does not name its states" "$(within repeat '/name(e/d')"
fault "a repeat does not name its source" "$(within repeat '/name(e, u)/d')"
fault "a repeat does not name its target" "$(within repeat '/name(e, v)/d')"
fault "a repeat leaves its states unseen" "$(within repeat 's/name(e, \([uv]\))/e->marks[\1] |= NAMED/')"
fault "a repeat clears the bits above 4" "$(within repeat 's/    return 0;/    e->marks[v] \&= 7;\n&/')"
fault "a repeat opens its target" "$(within repeat 's/    return 0;/    e->status[v] = OPEN;\n&/')"
fault "a repeat is judged like a new step" "$(within repeat 's/    return 0;/    return e->status[v] == LIVE ? make_live(e, u) : 0;/')"
fault "a repeat is news" "$(within repeat 's/    return 0;/    return e->news[0] = (uint16_t)u, 1;/')"
fault "a repeat is written behind the list" "$(within repeat 's/    return 0;/    if (e->steps < e->limit) e->from[e->steps] = (uint16_t)u;\n&/')"
fault "a repeat leaves its place in the queue" "$(within repeat 's/    return 0;/    e->queue[0] = (uint16_t)u;\n&/')"
fault "from is not compared" "$(within equal_at 's/e->from\[p\] == u && //')"
fault "to is not compared" "$(within equal_at 's/e->to\[p\] == v && //')"
fault "keys are not compared" "$(within equal_at 's/ && e->key\[p\] == key//')"
fault "from is compared in a byte" "$(within equal_at 's/e->from\[p\] == u/(uint8_t)e->from[p] == (uint8_t)u/')"
fault "to is compared in a byte" "$(within equal_at 's/e->to\[p\] == v/(uint8_t)e->to[p] == (uint8_t)v/')"
fault "ends are compared in eleven bits" "$(within equal_at 's/e->from\[p\] == u/e->from[p] % 2048 == u/')"
fault "keys are compared in four bits" "$(within equal_at 's/e->key\[p\] == key/e->key[p] % 16 == key % 16/')"
fault "keys are compared in five bits" "$(within equal_at 's/e->key\[p\] == key/e->key[p] % 32 == key/')"
fault "the ends are exchanged" "$(within equal_at 's/== u/== other/; s/== v/== u/; s/== other/== v/')"
fault "the ends of a block are exchanged" "$(within ends_among 's/== u/== other/; s/== v/== u/; s/== other/== v/')"
fault "the first entry of a block is not compared" "$(within ends_among 's/size_t i = 0/size_t i = 1/')"
fault "the last entry of a block is not compared" "$(within ends_among 's/i < count/i + 1 < count/')"
fault "the first entry of a block is not looked at" "$(within find_step 's/size_t p = at;/size_t p = at + 1;/')"
fault "the last entry of a block is not looked at" "$(within find_step 's/p < end/p + 1 < end/')"
fault "entries of a block compared by eights alone" "$(within ends_among 's/i < count/i < count - count % 8/')"
fault "the ends by another key end the search" "$(within find_step 's/            if (equal_at.*/&\n        return 0;/')"
fault "the first entry with the ends decides" "$(within find_step 's/            if (equal_at.*/            if (e->from[p] == u \&\& e->to[p] == v) return e->key[p] == key ? p + 1 : 0;/')"
fault "entries behind the list are compared" "$(within find_step 's/e->steps/e->limit/g')"
fault "the entry right behind the list is compared" "$(within find_step 's/? e->steps : at + BLOCK/? e->steps + (e->steps < e->limit) : at + BLOCK/')"
fault "the first block is not searched" "$(within find_step 's/size_t at = 0/size_t at = BLOCK/')"
fault "the first block alone is searched" "$(within find_step 's/at < e->steps;/at < e->steps \&\& at < BLOCK;/')"
fault "whole blocks alone are searched" "$(within find_step 's/at < e->steps;/at + BLOCK <= e->steps;/')"
fault "every other block is searched" "$(within find_step 's/at += BLOCK/at += 2 * BLOCK/')"
fault "one entry is left out between blocks" "$(within find_step 's/at += BLOCK/at += BLOCK + 1/')"
fault "4,096 steps are searched" "$(within find_step 's/at < e->steps;/at < e->steps \&\& at < 4096;/')"
fault "no list is searched" "$(within is_repeat 's/find_step(e, u, v, key) > 0/0/')"
fault "the whole list is searched where no step leaves the source" "$(within is_repeat 's/find_step(/e->out_head[u] == 0 \&\& find_step(/')"
fault "a step out of the list of its source is taken for the source's" "$(within found_soon 's/equal_at(e, p - 1, u, v, key)/(e->to[p - 1] == v \&\& e->key[p - 1] == key)/')"
fault "a step whose source has as many as are looked at is a repeat" "$(within found_soon 's/if (--left == 0) return 0;/if (--left == 0) return 1;/')"

# tables with any contents
fault "a walk that does not fall" 's/return q < p ? q : 0;/return q;/'
fault "a walk that starts behind the list" 's/return p <= steps ? p : 0;/return p;/'
fault "sources out of range are visited" "$(within offer_sources 's/y < e->n && //')"
fault "sources out of range are rescued" "$(within rescue 's/y < e->n && //')"
fault "targets out of range are read" "$(within leads_out 's/y < e->n && //')"
fault "successors lead out of range" "$(within meets_open 's/        if (s >= e->n) return 0;//')"
fault "successors behind the list are followed" "$(within meets_open 's/        if (p >= e->steps) return 0;//')"
fault "successors are followed without end" "$(within meets_open 's/ || left == 0//')"
fault "states are queued twice" "$(within offer_sources 's/!is_visited(e, y) && //')"

# the status question and the news length
call_fault "the question takes n for a state" 's/state >= n/state > n/'
call_fault "the question tests 4 before 3" 's/steps, status_len >= n)/steps, status_len >= n || steps > limit)/'
call_fault "the question forgets the steps" 's/steps, status_len >= n)/0, status_len >= n)/'
call_fault "the question cuts the byte" 's/return status\[state\];/return status[state] % 8;/'
call_fault "the whole list is no news part" 's/count <= news_len/count < news_len/'
call_fault "the news part of too high a number is the list" 's/: 0;/: news_len;/'

# the table check: what fits
fitting_fault "a named state that nothing mentions fits" 's/    if (memcmp(marks, t->marks, t->n) != 0) return 0;/    for (size_t s = 0; s < t->n; s++) if ((marks[s] ^ t->marks[s]) \& ~NAMED || marks[s] > t->marks[s]) return 0;/'
fitting_fault "a marked state that is not named fits" 's/    if (memcmp(marks, t->marks, t->n) != 0) return 0;/    for (size_t s = 0; s < t->n; s++) if ((marks[s] ^ t->marks[s]) \& ~NAMED || marks[s] < t->marks[s]) return 0;/'
fitting_fault "a mark byte above 7 fits" 's/    if (memcmp(marks, t->marks, t->n) != 0) return 0;/    for (size_t s = 0; s < t->n; s++) if ((marks[s] ^ t->marks[s]) \& 7) return 0;/'
fitting_fault "statuses are not looked at" 's/return memcmp(status, t->status, t->n) == 0;/return 1;/'
fitting_fault "the last state is not looked at" 's/return memcmp(status, t->status, t->n) == 0;/return memcmp(status, t->status, t->n - 1) == 0;/'
fitting_fault "an open state called live fits" 's/    return memcmp(status, t->status, t->n) == 0;/    for (size_t s = 0; s < t->n; s++) if (status[s] != t->status[s] \&\& !(status[s] == OPEN \&\& t->status[s] == LIVE)) return 0; return 1;/'
fitting_fault "an unknown state called dead fits" 's/    return memcmp(status, t->status, t->n) == 0;/    for (size_t s = 0; s < t->n; s++) if (status[s] != t->status[s] \&\& !(status[s] == UNKNOWN \&\& t->status[s] == DEAD)) return 0; return 1;/'
fitting_fault "a dead state called unknown fits, with a ring of successors" 's/    return memcmp(status, t->status, t->n) == 0;/    for (size_t s = 0; s < t->n; s++) if (status[s] != t->status[s] \&\& !(status[s] == DEAD \&\& t->status[s] == UNKNOWN)) return 0; return 1;/; s/turns = chain_length(t, s, far);/turns = leaves(t, s) * t->n;/'
few=1 fitting_fault "a ring of successors fits" 's/turns = chain_length(t, s, far);/turns = leaves(t, s) * t->n;/'
fitting_fault "a successor that leaves another state fits" 's/ && t->from\[p\] == s//'
fitting_fault "a successor behind the list fits" "$(within leaves 's/p < t->steps/p <= t->steps/')"
fitting_fault "a successor of a live state fits" 's/if (t->status\[s\] != UNKNOWN && t->successor/if (t->status[s] != UNKNOWN \&\& t->status[s] != LIVE \&\& t->successor/'
fitting_fault "any other successor than the first step out does not fit" "$(within leaves 's/    return p < /    for (size_t q = 0; q < p \&\& q < t->steps; q++) if (t->from[q] == s) return 0;\n&/')"
fitting_fault "within n - 2 steps" "$(within chain_length 's/t->n - 1/t->n - 2/g')"
fitting_fault "no steps into a state are looked at" 's/list_fits(t, t->to, t->in_head, t->in_next) && //'
fitting_fault "no steps out of a state are looked at" 's/ && list_fits(t, t->from, t->out_head, t->out_next)//'
fitting_fault "the states' list entries are not looked at" 's/return memcmp(last, head, 2 \* t->n) == 0;/return 1;/'
fitting_fault "the steps' list entries are not looked at" 's/ || next\[p\] != last\[ends\[p\]\]//'
fitting_fault "a free list entry does not fit" 's/    return memcmp(last, head, 2 \* t->n) == 0;/    if (next == t->in_next \&\& next[t->steps] > 8192) return 0;\n&/'
fitting_fault "visited marks are not looked at" 's/ && fits_visited(t)//'
fitting_fault "the last visited mark is not looked at" "$(within fits_visited 's/s < t->n/s + 1 < t->n/')"
fitting_fault "visited marks in the last, partly used entry are not looked at" "$(within fits_visited 's/s < t->n/s < t->n \/ 16 * 16/')"
few=1 fitting_fault "a bit behind the visited marks does not fit" "$(within fits_visited 's/s < t->n/s < (t->n + 15) \/ 16 * 16/')"
fitting_fault "a visited mark is an entry" "$(within fits_visited 's/t->visited.*) return/s < (t->n + 15) \/ 16 \&\& t->visited[s]) return/')"
fitting_fault "the first visited mark of an entry alone is looked at" "$(within fits_visited 's/1u << s % 16/1u/')"
fitting_fault "a step to a state out of range fits" 's/t->from\[p\] >= t->n || t->to\[p\] >= t->n/t->from[p] >= t->n || t->to[p] > t->n/; s/if (ends\[p\] >= t->n || next/if (ends[p] >= t->n) continue; if (next/'
fitting_fault "a step equal but for its key does not fit" "$(within steps_in_bounds 's/        if (t->from/        if ((p > 0 \&\& t->from[p] == t->from[p - 1] \&\& t->to[p] == t->to[p - 1] \&\& t->key[p] != t->key[p - 1]) || t->from/')"
fitting_fault "two equal steps fit" 's/ || !no_two_equal(t)//'
fitting_fault "two equal steps by a key below 16 fit" "$(within no_two_equal 's/!(\*byte_of/(t->key[p] < 16 || !(*byte_of/; s/bit_of(t, p)); p++/bit_of(t, p))); p++/')"
few=1 fitting_fault "two equal steps by a key from 16 on fit" "$(within no_two_equal 's/!(\*byte_of/(t->key[p] >= 16 || !(*byte_of/; s/bit_of(t, p)); p++/bit_of(t, p))); p++/')"
fitting_fault "two equal steps by the key 31 fit" "$(within no_two_equal 's/!(\*byte_of/(t->key[p] == 31 || !(*byte_of/; s/bit_of(t, p)); p++/bit_of(t, p))); p++/')"
fitting_fault "two equal steps from a state to itself fit" "$(within no_two_equal 's/!(\*byte_of/(t->from[p] == t->to[p] || !(*byte_of/; s/bit_of(t, p)); p++/bit_of(t, p))); p++/')"
fitting_fault "two equal steps out of a closed state fit" "$(within no_two_equal 's/!(\*byte_of/((t->marks[t->from[p]] \& CLOSED) || !(*byte_of/; s/bit_of(t, p)); p++/bit_of(t, p))); p++/')"
fitting_fault "two equal steps that are not neighbours fit" "$(within no_two_equal 's/    size_t p = 0;/    for (size_t q = 1; q < t->steps; q++) if (t->from[q] == t->from[q - 1] \&\& t->to[q] == t->to[q - 1] \&\& t->key[q] == t->key[q - 1]) return 0;\n    return 1;\n&/')"
fitting_fault "two equal steps side by side fit" "$(within no_two_equal 's/!(\*byte_of/((p > 0 \&\& t->from[p] == t->from[p - 1] \&\& t->to[p] == t->to[p - 1] \&\& t->key[p] == t->key[p - 1]) || !(*byte_of/; s/bit_of(t, p)); p++/bit_of(t, p))); p++/')"
fitting_fault "two equal steps in a long list fit" "$(within no_two_equal 's/    size_t p = 0;/&\n    if (t->steps > 4096) return 1;/')"
fitting_fault "a copy at the last place fits" "$(within no_two_equal 's/int none = p == t->steps/int none = p + 1 >= t->steps/')"
fitting_fault "a copy of the first step fits" "$(within no_two_equal 's/size_t p = 0;/size_t p = 1;/; s/p == t->steps/p >= t->steps/')"
fitting_fault "steps whose keys differ by 16 do not fit" "$(within byte_of 's/key\[p\] \/ 8/key[p] \/ 8 % 2/')"
fitting_fault "steps that differ in from alone do not fit" "$(within byte_of 's/t->from\[p\]/0/')"
fitting_fault "steps that differ in to alone do not fit" "$(within byte_of 's/t->to\[p\]/0/')"
fitting_fault "steps that are each other's ends do not fit" "$(within byte_of 's/met\[t->from\[p\]\]\[t->to\[p\]\]/met[t->from[p] < t->to[p] ? t->from[p] : t->to[p]][t->from[p] < t->to[p] ? t->to[p] : t->from[p]]/')"
fitting_fault "keys are not looked at" 's/ || t->key\[p\] > MOST_KEY//'
fitting_fault "a key of 32 fits" 's/t->key\[p\] > MOST_KEY/t->key[p] > MOST_KEY + 1/'
fitting_fault "a key of 31 does not fit" 's/t->key\[p\] > MOST_KEY/t->key[p] >= MOST_KEY/'
fitting_fault "the last key is not looked at" 's/t->key\[p\] > MOST_KEY/(p + 1 < t->steps \&\& t->key[p] > MOST_KEY)/'
fitting_fault "a key behind the list is looked at" "$(within fits_history 's/^    if (!history_of/    if (t->key[t->steps] > 250) return 0;\n&/')"
fitting_fault "a key above 127 fits" 's/t->key\[p\] > MOST_KEY/(int8_t)t->key[p] > MOST_KEY/'

# the table check: what it writes and refuses
few=1 call_fault "a yes leaves a state visited" "$(within radvoinis_audit 's/visited\[i\] = yes ? 0 : 0xffff/visited[i] = yes ? (uint16_t)(1u << (n - 1) % 16) : 0xffff/')" damage
call_fault "visited is written past the needed entries" "$(within radvoinis_audit 's/    return yes;/    if (visited_len > (n + 15) \/ 16) visited[(n + 15) \/ 16] = 0;\n&/')" damage
call_fault "a no writes a mark" "$(within radvoinis_audit 's/    return yes;/    if (!yes) ((uint8_t *)marks)[0] |= 1;\n&/')" damage
call_fault "a yes clears a free list entry" "$(within radvoinis_audit 's/    return yes;/    if (yes \&\& steps < limit) ((uint16_t *)in_next)[steps] = 0;\n&/')" damage
call_fault "the queue is written past n" "$(within radvoinis_audit 's/    return yes;/    if (queue_len > n) queue[n] = 0;\n&/')" damage
call_fault "a refusal unmarks a state" "$(within radvoinis_audit 's/    if (number) return/    if (number == 4) visited[0] = 0;\n&/')" damage
call_fault "4 before 3" "$(within radvoinis_audit 's/by_state && by_step)/(by_state \&\& by_step) || steps > limit)/')" damage
for table in status marks successor in_head out_head queue visited; do
    call_fault "the check's $table too short by one" "$(within radvoinis_audit "s/${table}_len >= n\b/${table}_len + 1 >= n/")" damage
done
call_fault "the check takes n/16 rounded down" "$(within radvoinis_audit 's/ + (n % 16 > 0)//')" damage
for table in from to key in_next out_next; do
    call_fault "the check's $table too short by one" "$(within radvoinis_audit "s/\b${table}_len >= limit/${table}_len + 1 >= limit/")" damage
done

# records
few=1 reading_fault "a leading zero is taken" "$(within update_of 's/    if (strlen(written)/    if (text[2] == 48 \&\& length > 5 \&\& text[3] >= 48) return (Update){text[0], first, second, key};\n&/')"
reading_fault "a carriage return is taken" "$(within update_of "s/    memcpy(text, line, length);/    if (length > 1 \&\& line[length - 1] == 13) length--;\n&/")"
reading_fault "65,536 is taken" 's/first > 65535 || second > 65535/first > 65536 || second > 65536/'
reading_fault "65,535 is not taken" 's/first > 65535 || second > 65535/first > 65534 || second > 65534/'
reading_fault "65,536 is a key" 's/key > 65535/key > 65536/'
reading_fault "65,535 is no key" 's/key > 65535/key > 65534/'
reading_fault "a key of 32 is no update" 's/key > 65535/key > 31/'
reading_fault "keys of two digits at most" 's/key > 65535/key > 99/'
reading_fault "a leading zero of a key is taken" "$(within update_of 's/    if (strlen(written)/    if (keyed \&\& text[0] == 69 \&\& strstr(text + 5, " 0") \&\& text[length - 1] >= 48 \&\& text[length - 2] == 48) return (Update){text[0], first, second, key};\n&/')"
reading_fault "a dash is a key" "$(within update_of 's/    if (strlen(written)/    if (keyed \&\& text[0] == 69 \&\& text[length - 1] == 45) written[strlen(written) - 1] = 45;\n&/')"
reading_fault "a mark may have a key" "$(within update_of 's/    else if (keyed) strcat(written, " -");/    else if (keyed) sprintf(written + strlen(written), " %c", text[length - 1] >= 48 \&\& text[length - 1] < 58 ? text[length - 1] : 45);/')"
reading_fault "a step may lack its key" "$(within update_of 's/    if (strlen(written)/    if (keyed \&\& length == strlen(written) - 2) written[length] = 0;\n&/')"
reading_fault "a line without keys may have one" "$(within update_of 's/    if (!keyed) key = 0;/    if (!keyed \&\& key) keyed = 1;/')"
reading_fault "the names line with keys gives none" "$(within reading_line 's/    Update u = .*/&\n    if (r->keyed) u.key = 0;/')"
drawing_fault "the names line without keys gives the key 7" "$(within reading_line 's/    Update u = .*/&\n    if (!r->keyed) u.key = 7;/')" reading
reading_fault "the names line with keys is not known" "$(within read_names 's/int exact = r->keyed || /int exact = /')"
reading_fault "the names line without keys is not known" "$(within read_names 's/int exact = r->keyed || .*/int exact = r->keyed;/')"
reading_fault "a line of 17 bytes is taken" "$(within update_of 's/text\[17\]/text[18]/; s/length > 16/length > 17/')"
reading_fault "a line of 16 bytes is too long" "$(within update_of 's/length > 16/length > 15/')"
reading_fault "a line is cut at 16 bytes" "$(within update_of 's/length == 0 || length > 16) return (Update){0};/length == 0) return (Update){0}; if (length > 16) length = keyed ? 16 : 13;/')"
reading_fault "a line ends at a NUL" "$(within update_of 's/    if (strlen(written) != length || memcmp(written, line, length) != 0)/    if (strcmp(written, text) != 0)/')"
reading_fault "blank lines are passed over" "$(within reading_line 's/    Update u = /    if (length == 0) return 1;\n&/')"
listing_fault "blank lines are not counted" "$(within reading_line 's/    Update u = /    if (length == 0) r->lines--;\n&/')"
status_fault "the last line is lost without its newline: status" "$(within reading_read 's/        more = reading_line/        if (!end) break;\n&/')"
status_fault "a last newline makes an empty line: status" "$(within reading_read 's/at < length) {/at <= length) {/')"
reading_fault "the names line need only begin so" "$(within read_names 's/is_line(plain_names, line, length)/is_line(plain_names, line, length < 12 ? length : 12)/')"
reading_fault "the names line with keys need only begin so" "$(within read_names 's/is_line(keyed_names, line, length)/is_line(keyed_names, line, length < 16 ? length : 16)/')"
reading_fault "the names line is not looked at" "$(within read_names 's/if (!exact) refuse(r, r->lines, 10, listing);/exact = 1;/')"
listing_fault "lines are listed after 10" "$(within read_names 's/return exact;/return 1;/')"
listing_fault "lines are listed after 12" "$(within reading_line 's/return 0;/return 1;/')"
reading_fault "empty input is a record" "$(within refuse_missing 's/if (r->refused || /&r->lines == 0 || /')"
reading_fault "12 a line early" "$(within reading_line 's/number == 65536/number == 65535/')"
reading_fault "12 a line late" "$(within reading_line 's/number == 65536/number == 65537/')"
reading_fault "11 before 12" "$(within reading_line 's/number == 65536/number == 65536 \&\& (length == 0 || update_of(line, length, r->keyed).kind)/')"
reading_fault "7 still given to a line" "$(within reading_line 's/    refusal ? refuse/    if (!refusal \&\& reference_again(r->marks, u)) refusal = 7;\n&/')"
listing_fault "a second close is listed as news" "$(within accept 's/    if (reference_again(r->marks, u)) return;/    if (listing \&\& reference_again(r->marks, u)) fprintf(listing, "%zu dead %zu\\n", number, u.first);\n&/')"
reading_fault "9 for a line that repeats a step" "$(within reading_line 's/history_lists(h, u), u)/0, u)/')"
reading_fault "a line that repeats a step takes a place" "$(within accept 's/    if (history_lists(&r->history, u)) return;/    if (history_lists(\&r->history, u)) return history_add_unlike(\&r->history, u);/')"
reading_fault "a line that repeats a step of a closed state is accepted" "$(within reading_line 's/    refusal ? refuse/    if (refusal == 6 \&\& history_lists(h, u)) refusal = 0;\n&/')"
reading_fault "a line is a repeat whatever its key" "$(within reading_line 's/    Update u = .*/&\n    for (size_t p = 0; u.key < 32 \&\& r->keyed \&\& p < r->history.steps; p++) if (r->history.listed[p].first == u.first \&\& r->history.listed[p].second == u.second) u.key = r->history.listed[p].key;/')"
reading_fault "a line that repeats a step takes a place while there is one" "$(within accept 's/    if (history_lists(&r->history, u)) return;/    if (history_lists(\&r->history, u) \&\& r->history.steps < 2048) return history_add_unlike(\&r->history, u);/')"
listing_fault "a repeat is listed as news" "$(within accept 's/    if (history_lists(&r->history, u)) return;/    if (listing \&\& history_lists(\&r->history, u)) fprintf(listing, "%zu live %zu\\n", number, u.first);\n&/')"
reading_fault "a limit of 2,047 steps" "$(within reading_start 's/MOST_STATES, limit)/MOST_STATES, limit - 1)/')"
reading_fault "a limit of 2,049 steps" "$(within reading_start 's/MOST_STATES, limit)/MOST_STATES, limit + 1)/')"
status_fault "the last refusal decides" "$(within refuse 's/if (!r->refused) //')"
status_fault "a state of 2,048 is asked of the record" "$(within reading_answer 's/state >= r->history.n/state > MOST_STATES || (state >= r->history.n \&\& r->history.n < MOST_STATES)/')"
status_fault "states asked in sixteen bits" "$(within reading_answer 's/state >= r->history.n/(uint16_t)state >= r->history.n/; s/\[state\]/[(uint16_t)state]/')"
status_fault "a state out of range is tested last" "$(within reading_answer 's/^    if (state/    if (r->refused) return 16 + r->refused;\n&/')"
call_fault "the record is read past its end" "$(within radvoinis_status 's/    static Reading reading;/&\n    if (record[record_len] == 77) return 0;/')" records
call_fault "the record is written to" "$(within radvoinis_status 's/    return reading_answer/    if (record_len > 20) ((uint8_t *)record)[13] ^= 1;\n&/')" records
listing_fault "no header" 's/    if (listing) fprintf(listing, "line verdict number.*//'
listing_fault "live printed dead" 's/== LIVE ? "live" : "dead"/== LIVE ? "dead" : "dead"/'
listing_fault "news falling" "$(within print_news 's/news\[i\]/news[count - 1 - i]/g')"
listing_fault "lines counted from 0" "$(within print_news 's/n", number, /n", number - 1, /')"
listing_fault "unknown and live exchanged" 's/"unknown", "live"/"live", "unknown"/'
listing_fault "the last state is not counted" "$(within print_totals 's/s < n/s + 1 < n/')"
listing_fault "the last state of each 128 is not counted" "$(within print_totals 's/s++) totals/s++) if (s % 128 != 127) totals/')"
listing_fault "the 256th state of a status is not counted" "$(within print_totals 's/totals\[status\[s\]\]++/if (totals[status[s]] != 255) totals[status[s]]++/')"
listing_fault "a total is kept in a byte" "$(within print_totals 's/size_t totals/uint8_t totals/; s/%zu/%u/')"
listing_fault "an unseen state is counted as open" "$(within print_totals 's/totals\[status\[s\]\]++/totals[status[s] ? status[s] : OPEN]++/')"
listing_fault "state 2,047 is not counted" "$(within print_totals 's/s < n/s < n \&\& s < 2047/')"
listing_fault "no totals after 10" "$(within reading_end 's/if (listing) print_totals/if (listing \&\& r->refused != 10) print_totals/')"
listing_fault "no totals after 12" "$(within reading_end 's/if (listing) print_totals/if (listing \&\& r->lines < 65536) print_totals/')"

# a count of states before the names line
count_fault() { # NAME TEST CUT: while the test says so, a byte is cut off the line before it is read as a count
    reading_fault "$1" "$(within read_count "s/    size_t count = /    while (length > 1 \&\& ($2)) $3;\n&/")"
}
few=1 status_fault "21 before 33" "$(within reading_answer 's/^    if (r->refused == 17)/    if (state >= r->history.n) return 16 + 5;\n&/')"
status_fault "26 before 21" "$(within reading_answer 's/^    if (state/    if (r->refused == 10) return 16 + 10;\n&/')"
status_fault "26 before 21 behind a count" "$(within reading_answer 's/^    if (state/    if (r->refused == 10 \&\& r->names == 3) return 16 + 10;\n&/')"
status_fault "27 before 21" "$(within reading_answer 's/^    if (state/    if (r->refused == 11) return 16 + 11;\n&/')"
status_fault "a state that is the count is asked of the record" "$(within reading_answer 's/state >= r->history.n/state > r->history.n/')"
status_fault "a state below the count answers 21" "$(within reading_answer 's/state >= r->history.n/state + 1 >= r->history.n/')"
status_fault "states are asked up to 2,048 whatever the count" "$(within reading_answer 's/state >= r->history.n/state >= MOST_STATES/')"
status_fault "a 17 is answered for states in range alone" "$(within reading_answer 's/r->refused == 17/r->refused == 17 \&\& state < MOST_STATES/')"
reading_fault "2,049 is a count" "$(within count_of 's/count > MOST_STATES/count > MOST_STATES + 1/'); $(within read_count 's/r->history.n = count/r->history.n = count > 2048 ? 2048 : count/')"
reading_fault "any number is a count" "$(within count_of 's/ || count > MOST_STATES//'); $(within read_count 's/r->history.n = count/r->history.n = count > 2048 ? 2048 : count/')"
reading_fault "2,048 is no count" "$(within count_of 's/count > MOST_STATES/count >= MOST_STATES/')"
reading_fault "2,047 is no count" "$(within count_of 's/count > MOST_STATES/count > MOST_STATES || count == 2047/')"
reading_fault "1 is no count" "$(within count_of 's/count == 0/count <= 1/')"
reading_fault "0 is a count" "$(within read_count 's/    if (!count)/    if (length == 1 \&\& line[0] == 48) count = 1;\n&/')"
reading_fault "a blank line is a count" "$(within read_count 's/    if (!count)/    if (length == 0) count = 2048;\n&/')"
reading_fault "a count of four digits at most, the others passed over" "$(within count_of 's/if (length > 4) return 0;/if (length > 4) length = 4;/')"
reading_fault "a count in sixteen bits" "$(within count_of 's/    if (length > 4) return 0;/    if (length > 4 \&\& length <= 16) { char all[32] = {0}, again[32]; memcpy(all, line, length); sscanf(all, "%lu", \&count); sprintf(again, "%lu", count); count \&= 65535; return count <= 2048 \&\& is_line(again, line, length) ? count : 0; }\n&/')"
count_fault "a leading zero of a count is taken" 'line[0] == 48' 'line++, length--'
count_fault "a plus before a count is taken" 'line[0] == 43' 'line++, length--'
count_fault "a minus before a count is taken" 'line[0] == 45' 'line++, length--'
count_fault "a space before a count is taken" 'line[0] == 32' 'line++, length--'
count_fault "a space behind a count is taken" 'line[length - 1] == 32' 'length--'
count_fault "a carriage return behind a count is taken" 'line[length - 1] == 13' 'length--'
count_fault "a NUL behind a count is taken" 'line[length - 1] == 0' 'length--'
count_fault "what is no digit behind a count is taken" 'line[length - 1] < 48 || line[length - 1] > 57' 'length--'
reading_fault "states need only begin so" "$(within reading_line 's/is_line(states, line, length)/is_line(states, line, length < 6 ? length : 6)/')"
reading_fault "a carriage return behind states is taken" "$(within reading_line 's/is_line(states, line, length)/is_line(states, line, length - (length == 7 \&\& line[6] == 13))/')"
reading_fault "a space behind states is taken" "$(within reading_line 's/is_line(states, line, length)/is_line(states, line, length - (length == 7 \&\& line[6] == 32))/')"
reading_fault "states in capitals is taken" "$(within reading_line 's/is_line(states, line, length)/(length == 6 \&\& strncasecmp((const char *)line, states, 6) == 0)/')"
reading_fault "the last letter of states is not looked at" "$(within reading_line 's/is_line(states, line, length)/(length == 6 \&\& memcmp(line, states, 5) == 0)/')"
reading_fault "states is not known" "$(within reading_line 's/number == 1 \&\& is_line(states, line, length)/0/')"
reading_fault "states behind a count is passed over" "$(within reading_line 's/    if (number == r->names)/    if (number == 3 \&\& r->names == 3 \&\& is_line(states, line, length)) return r->names = 4, 1;\n&/')"
reading_fault "states twice is taken for once" "$(within reading_line 's/    if (number == 2 /    if (number == 2 \&\& r->names == 3 \&\& is_line(states, line, length)) return r->lines--, 1;\n&/')"
reading_fault "a count behind the names line" "$(within reading_line 's/    Update u = /    if (number == 3 \&\& r->names == 1 \&\& count_of(line, length)) return r->history.n = count_of(line, length), 1;\n&/')"
reading_fault "a names line in the place of the count" "$(within reading_line 's/    if (number == 2 /    if (number == 2 \&\& r->names == 3 \&\& is_line(plain_names, line, length)) r->names = 2;\n&/')"
reading_fault "no names line behind a count" "$(within reading_line 's/    if (number == r->names)/    if (number == 3 \&\& r->names == 3 \&\& update_of(line, length, 0).kind) r->names = 2;\n&/')"
reading_fault "the names line behind a count has no keys" "$(within read_names 's/    return exact;/    if (r->names == 3) r->keyed = 0;\n&/')"
listing_fault "lines are counted from the names line" "$(within read_count 's/r->history.n = count;/r->history.n = count, r->lines = 0, r->names = 1;/')"
reading_fault "12 two lines late behind a count" "$(within reading_line 's/number == 65536/number == 65535 + r->names/')"
reading_fault "the count is passed over" "$(within read_count 's/    else r->history.n = count;//')"
reading_fault "a state fewer than the count" "$(within read_count 's/r->history.n = count;/r->history.n = count > 1 ? count - 1 : 1;/')"
reading_fault "a state more than the count" "$(within read_count 's/r->history.n = count;/r->history.n = count < 2048 ? count + 1 : count;/')"
reading_fault "the count is the step limit too" "$(within read_count 's/r->history.n = count;/r->history.n = r->history.limit = count;/')"
reading_fault "the count is kept in a byte" "$(within read_count 's/r->history.n = count;/r->history.n = count % 256 ? count % 256 : 256;/')"
reading_fault "10 for a count that is none" "$(within read_count 's/refuse(r, 2, 17, listing)/refuse(r, 2, 10, listing)/')"
reading_fault "10 for a count that is missing" "$(within refuse_missing 's/r->lines == 1 ? 17 : 10/10/')"
reading_fault "17 for a names line that is missing behind a count" "$(within refuse_missing 's/r->lines == 1 ? 17/r->lines ? 17/')"
reading_fault "17 for a names line that is wrong behind a count" "$(within read_names 's/r->lines, 10, listing/r->lines, r->names == 3 ? 17 : 10, listing/')"
reading_fault "a record may end behind states" "$(within refuse_missing 's/if (r->refused || /&r->lines == 1 || /')"
reading_fault "a record may end behind its count" "$(within refuse_missing 's/if (r->refused || /&r->lines == 2 || /')"
listing_fault "17 at line 1" "$(within read_count 's/refuse(r, 2, 17/refuse(r, 1, 17/')"
listing_fault "17 twice where the count is the last line" "$(within refuse_missing 's/r->refused || //; s/r->lines >= r->names/r->lines >= r->names || r->refused == 10/')"
listing_fault "lines are listed after 17" "$(within read_count 's/return count > 0;/return 1;/')"
listing_fault "no totals after 17" "$(within reading_end 's/if (listing) print_totals/if (listing \&\& r->refused != 17) print_totals/')"
listing_fault "the count is listed" "$(within read_count 's/r->history.n = count;/r->history.n = count, listing ? fprintf(listing, "2 states %zu\\n", count) : 0;/')"
program_fault "reading goes on after 17" 's/    if (ferror(stdin)) .*/    while (r->refused == 17 \&\& getline(\&line, \&room, stdin) > 0) ;\n&/'
program_fault "reading goes on after 10 behind a count" 's/    if (ferror(stdin)) .*/    while (r->refused == 10 \&\& r->lines == 3 \&\& getline(\&line, \&room, stdin) > 0) ;\n&/'
drawing_fault "the count is passed over: draw" "$(within read_count 's/    else r->history.n = count;//')" reading
drawing_fault "a state fewer than the count: draw" "$(within read_count 's/r->history.n = count;/r->history.n = count > 1 ? count - 1 : 1;/')" reading
drawing_fault "lines are drawn after 17" "$(within read_count 's/return count > 0;/return 1;/')" reading
drawing_fault "no picture after 17" 's/    drawing_write(/    if (reading.refused != 17) drawing_write(/' drawer
drawing_fault "no picture with a count" 's/    drawing_write(/    if (reading.names == 1) drawing_write(/' drawer
drawing_fault "unseen states below the count drawn" "$(within drawing_write 's/write_state(s, r->status\[s\]/if (s < r->history.n \&\& r->history.n < 2048 \&\& !r->status[s]) fprintf(picture, "  %zu;\\n", s); else &/')"

# the programs' input and output
program_fault "the last line is lost without its newline" 's/        more = reading_line/        if (line[got - 1] != 10) break;\n&/'
listing_fault "a last newline makes an empty line: listing" 's/int more = 1;/int more = 1, ended = 0;/; s/        more = reading_line/        ended = line[got - 1] == 10;\n&/; s/    if (ferror(stdin)) .*/    if (more \&\& ended) reading_line(r, (const uint8_t *)"", 0, listing);\n&/' standard
program_fault "the first piece alone is read" 's/int more = 1;/int more = 1; size_t taken = 0;/; s/        more = reading_line/        if ((taken += (size_t)got) > 65536) break;\n&/'
program_fault "a short piece is the last" 's/stdin)) > 0/input)) > 0/; s/int more = 1;/int more = 1, part; static char all[1 << 24]; size_t bytes = 0; do bytes += (part = read(0, all + bytes, 65536)) > 0 ? part : 0; while (part == 65536); FILE *input = fmemopen(all, bytes ? bytes : 1, "r");/'
few=1 program_fault "reading goes on after 10" 's/    if (ferror(stdin)) .*/    while (r->lines == 1 \&\& getline(\&line, \&room, stdin) > 0) ;\n&/'
program_fault "reading goes on after 12" 's/    if (ferror(stdin)) .*/    while (r->lines == 65536 \&\& getline(\&line, \&room, stdin) > 0) ;\n&/'
program_fault "a read error is not said" 's/    if (ferror(stdin)) .*//'
program_fault "a read error is the end of all" 's/    if (ferror(stdin)) .*/&\n    if (ferror(stdin)) exit(0);/'
program_fault "an end is said to be an error" 's/if (ferror(stdin))/if (more)/'
any_program_fault "a failed write is not said" 's/    if (fflush.*/    fflush(stdout);/'
any_program_fault "a failed write is an exit status" 's/    if (fflush.*/    if (fflush(stdout) || ferror(stdout)) fprintf(stderr, "%s: cannot write standard output\\n", program), exit(1);/'
listing_fault "a failed write does not end it" 's/!ferror(stdout) && //' standard
few=1 listing_fault "a full buffer is begun anew and not written" 's/int more = 1;/int more = 1; static char kept[131072]; setvbuf(stdout, kept, _IOFBF, sizeof kept);/; s/        more = reading_line.*/&\n        if (__fpending(stdout) > 90112) __fpurge(stdout);/; s/#include <stdlib.h>/&\n#include <stdio_ext.h>/' standard

# arguments
any_program_fault "an argument is passed over" "$(within standard_usage 's/argc < 2/argc < 3 \&\& (argc < 2 || strcmp(argv[1], "--help") != 0)/')"
any_program_fault "an empty argument is none" "$(within standard_usage 's/argc < 2/argc < 2 || !argv[1][0]/')"
any_program_fault "usage that nobody asked for on standard output" "$(within standard_usage 's/asked ? stdout : stderr/stdout/')"
any_program_fault "usage that was asked for on standard error" "$(within standard_usage 's/asked ? stdout : stderr/stderr/')"
any_program_fault "help is asked for by more than --help" "$(within standard_usage 's/argc == 2 && //')"
any_program_fault "help is asked for by its first bytes" "$(within standard_usage 's/strcmp(argv\[1\], "--help")/strncmp(argv[1], "--help", 6)/')"
any_program_fault "help is asked for by another letter" "$(within standard_usage 's/strcmp(argv/strcasecmp(argv/')"
any_program_fault "usage that cannot be written is not said" "$(within standard_usage 's/    if (asked) standard_end.*//')"
any_program_fault "the input is read before the usage" "$(within standard_usage 's/    int asked/    getchar();\n&/')"
any_program_fault "an argument is an exit status" "$(within standard_usage 's/    return 1;/    if (!asked) exit(1);\n&/')"
any_program_fault "the usage and then the record" "$(within standard_usage 's/    return 1;/    return asked;/')"

# pictures
few=1 drawing_fault "bold by the target" "$(within choose 's/first/other/g; s/second/first/g; s/other/second/g')" drawer
drawing_fault "every step bold" 's/bold\[p\] ? bold_end : "\];"/bold_end/'
drawing_fault "no step bold" 's/bold\[p\] ? bold_end : "\];"/"];"/'
drawing_fault "no label for key 0" "$(within drawing_write 's/        fprintf(picture, "  %zu -> %zu \[/        if (!u.key) fprintf(picture, "  %zu -> %zu%s\\n", u.first, u.second, bold[p] ? " [style=bold];" : ";"); else fprintf(picture, "  %zu -> %zu [/')"
drawing_fault "a label without quotes" 's/label=\\"%zu\\"%s/label=%zu%s/'
drawing_fault "keys above 15 drawn as 15" 's/u.second, u.key, bold/u.second, u.key > 15 ? 15 : u.key, bold/'
drawing_fault "the key of the step before drawn" "$(within drawing_write 's/u.second, u.key, bold/u.second, p > 0 ? r->history.listed[p - 1].key : u.key, bold/')"
drawing_fault "steps that differ only in key drawn once" "$(within drawing_write 's/        fprintf(picture, "  %zu -> %zu \[/        if (!(p > 0 \&\& r->history.listed[p - 1].first == u.first \&\& r->history.listed[p - 1].second == u.second)) fprintf(picture, "  %zu -> %zu [/')"
drawing_fault "a step with a refused key drawn" "$(within reading_line 's/    refusal ? refuse/    if (refusal == 14) history_add(\&r->history, u);\n&/')" reading
drawing_fault "every step to a nearer state bold" "$(within choose 's/!near\[u.first\] && near\[u.second\]/!bold[p] \&\& near[u.second]/')" drawer
drawing_fault "a ring of bold steps" "$(within choose 's/near\[u.second\])/(near[u.second] || r->status[u.second] == UNKNOWN))/')" drawer
drawing_fault "bold steps out of live states" "$(within choose 's/r->status\[u.first\] == UNKNOWN/(r->status[u.first] == UNKNOWN || r->status[u.first] == LIVE)/')" drawer
drawing_fault "the last bold step is plain" "$(within drawing_write 's/bold\[p\] ?/bold[p] \&\& p < 2047 ?/')"
drawing_fault "refused steps drawn" "$(within reading_line 's/    refusal ? refuse/    if (refusal == 6 \&\& u.kind == 69) history_add(\&r->history, u);\n&/')" reading
drawing_fault "a repeated step drawn again" "$(within accept 's/    if (history_lists(&r->history, u)) return;/    if (history_lists(\&r->history, u)) return history_add_unlike(\&r->history, u);/')" reading
drawing_fault "a repeated step drawn in its last place" "$(within accept 's/    if (history_lists(&r->history, u)) return;/    if (history_lists(\&r->history, u)) { size_t p = 0; while (r->history.listed[p].first != u.first || r->history.listed[p].second != u.second || r->history.listed[p].key != u.key) p++; for (; p + 1 < r->history.steps; p++) r->history.listed[p] = r->history.listed[p + 1]; r->history.listed[p] = u; return; }/')" reading
few=1 drawing_fault "live and dead exchanged" 's/"live", "dead"/"dead", "live"/'
drawing_fault "the colours of open and unknown exchanged" 's/"#ffffff", "#ffe08a"/"#ffe08a", "#ffffff"/'
drawing_fault "a terminal state with a single border" 's/", peripheries=2"/""/'
drawing_fault "a double border on a closed state" "$(within write_state 's/marks & TERMINAL/marks \& CLOSED/')"
drawing_fault "a double border on every live state" "$(within write_state 's/marks & TERMINAL/status == LIVE/')"
drawing_fault "a terminal state that is closed has a single border" "$(within write_state 's/marks & TERMINAL/(marks \& 6) == TERMINAL/')"
drawing_fault "unseen states drawn" "$(within write_state 's/if (status != UNSEEN) //')"
drawing_fault "state 2,047 not drawn" "$(within drawing_write 's/s < MOST_STATES/s < MOST_STATES - 1/')"
drawing_fault "states falling" "$(within drawing_write 's/write_state(s, r->status\[s\], r->marks\[s\]/write_state(2047 - s, r->status[2047 - s], r->marks[2047 - s]/')"
drawing_fault "no end" 's/    fprintf(picture, "}.n");//'
drawing_fault "the picture of the first refusal" "$(within reading_line 's/    return 1;/    return !refusal;/')" reading
drawing_fault "a limit of 2,047 steps drawn" "$(within reading_start 's/MOST_STATES, limit)/MOST_STATES, limit - 1)/')" reading
drawing_fault "12 a line late: draw" "$(within reading_line 's/number == 65536/number == 65537/')" reading
drawing_fault "no picture after 10" 's/    drawing_write(/    if (reading.refused != 10) drawing_write(/' drawer

# small histories
few=1 history_fault "a step after a close" "$(within write_longer "s/if (!reference_legal(marks, u)) continue;/if (u.kind != 'E' \&\& !reference_legal(marks, u)) continue;/")"
history_fault "a terminal mark after a close" "$(within write_longer "s/if (!reference_legal(marks, u)) continue;/if (u.kind != 'T' \&\& !reference_legal(marks, u)) continue;/")"
history_fault "a step into a closed state is left out" "$(within write_longer "s/                if (!reference_legal/                if (u.kind == 'E' \&\& (marks[u.second] \& CLOSED)) continue;\n&/")"
history_fault "a close again is left out" "$(within write_longer 's/                if (!reference_legal/                if (reference_again(marks, u)) continue;\n&/')"
few=1 history_fault "a repeated step is left out" "$(within write_longer 's/                if (!reference_legal/                if (history_lists(h, u)) continue;\n&/')"
history_fault "an update that was the last one too is left out" "$(within write_longer 's/                if (!reference_legal/                if (h->count \&\& h->accepted[h->count - 1].kind == u.kind \&\& h->accepted[h->count - 1].first == u.first \&\& h->accepted[h->count - 1].second == u.second) continue;\n&/')"
history_fault "closes before terminal marks" 's/"ETC"/"ECT"/'
history_fault "terminal marks before steps" 's/"ETC"/"TEC"/'
history_fault "higher from first" "$(within write_longer 's/Update u = {(uint8_t)\*kind, first/Update u = {(uint8_t)*kind, 1 - first/')"
history_fault "higher to first" "$(within write_longer "s/first, second, 0}/first, *kind == 'E' ? 1 - second : 0, 0}/")"
history_fault "lower to before lower from" "$(within write_longer "s/first, second, 0}/*kind == 'E' ? second : first, *kind == 'E' ? first : 0, 0}/")"
history_fault "longer ones first" "$(within enumerating_write 's/write_longer(&h, updates, out)/write_longer(\&h, MOST_UPDATES - updates, out)/')"
history_fault "each history behind the one that it goes on from" "$(within write_longer 's/if (more == 0) return write_history(h, out), 1;/write_history(h, out), count = 1; if (more == 0) return 1;/'); $(within enumerating_write 's/size_t updates = 0;/size_t updates = MOST_UPDATES;/')"
history_fault "the empty history is left out" "$(within enumerating_write 's/size_t updates = 0;/size_t updates = 1;/')"
history_fault "two updates at most" "$(within enumerating_write 's/updates <= MOST_UPDATES/updates < MOST_UPDATES/')"
history_fault "four updates at most" "$(within enumerating_write 's/updates <= MOST_UPDATES/updates <= MOST_UPDATES + 1/')"
history_fault "each line twice" "$(within write_longer 's/return write_history(h, out), 1;/return write_history(h, out), write_history(h, out), 2;/')"
history_fault "a last line twice" "$(within enumerating_write 's/    fprintf(out, "%zu.n", count);/    fprintf(out, "C 1 - -,C 1 - -,C 1 - -:04\\n%zu\\n", ++count);/')"
history_fault "a count by one off" "$(within enumerating_write 's/"%zu.n", count/"%zu\\n", count + 1/')"
history_fault "a count of those with three updates" "$(within enumerating_write 's/count += write_longer/count = write_longer/')"
history_fault "a count of all lists, legal or not" "$(within enumerating_write 's/"%zu.n", count/"%d\\n", 585/')"
history_fault "no count" "$(within enumerating_write 's/    fprintf(out, "%zu.n", count);//')"
history_fault "no newline behind the count" "$(within enumerating_write 's/"%zu.n", count/"%zu", count/')"
history_fault "the oldest update last" "$(within write_history 's/Update u = h->accepted\[i\];/Update u = h->accepted[h->count - 1 - i];/')"
history_fault "a comma before the first line" "$(within write_history 's/if (i > 0) fputc/fputc/')"
history_fault "a space behind each comma" "$(within write_history "s/fputc(',', out)/fputs(\", \", out)/")"
history_fault "lines without keys" "$(within write_history 's/"E %zu %zu %zu", u.first, u.second, u.key/"E %zu %zu", u.first, u.second/')"
history_fault "one dash for a mark" "$(within write_history 's/%c %zu - -/%c %zu -/')"
history_fault "the digits exchanged" "$(within write_history 's/status\[0\], status\[1\]/status[1], status[0]/')"
history_fault "the digits before the last update" "$(within write_history 's/    reference_statuses(h, status);/    History before = *h; before.count -= before.count > 0; reference_statuses(\&before, status);/')"
history_fault "no status for an unseen state" "$(within write_history 's/    fprintf(out, ":%d%d.n".*/&\n    if (!status[1]) fseek(out, -2, SEEK_CUR), fputc(10, out);/')"
history_fault "a close makes its state dead" "$(within status_of 's/return marks & CLOSED ? UNKNOWN : OPEN;/return marks \& CLOSED ? DEAD : OPEN;/')" reference
history_fault "a close of a live state changes it" "$(within status_of 's/if (live) return LIVE;/if (live \&\& !(marks \& CLOSED)) return LIVE;/')" reference
history_fault "a step does not name its target" "$(within reference_marks 's/        if (u.kind == .E.) marks\[u.second\] |= NAMED;//')" reference
history_fault "the input is read" "$(within main 's/    enumerating_write/    getchar();\n&/')" enumerator

# the writer
few=1 writing_fault "closes before the steps" '/    for (size_t p = 0/{ N; h; d; }; /CLOSED, .C., record + length);/G'
writing_fault "no names line" 's/kind from to key.n"/"/'
writing_fault "no head" 's/sprintf(record, .*/0;/'
writing_fault "no count" 's/states.n%zu.n//; s/key.n", n)/key\\n")/'
writing_fault "no line states" 's/states.n%zu/%zu/'
few=1 writing_fault "a count of 2,048 whatever n is" 's/key.n", n)/key\\n", (size_t)2048)/'
writing_fault "a count of one state fewer" 's/key.n", n)/key\\n", n > 1 ? n - 1 : n)/'
writing_fault "a count of one state more" 's/key.n", n)/key\\n", n < 2048 ? n + 1 : n)/'
writing_fault "a count in a byte" 's/key.n", n)/key\\n", n % 256)/'
writing_fault "a count with leading zeros" 's/%zu.nkind/%04zu\\nkind/'
writing_fault "a count with a space behind it" 's/%zu.nkind/%zu \\nkind/'
writing_fault "a count on the line of its word" 's/states.n%zu/states %zu/'
writing_fault "the names line before the count" 's/states.n%zu.nkind from to key.n/kind from to key\\nstates\\n%zu\\n/'
writing_fault "a count for 2,047 states and fewer alone" "$(within writing_write 's/sprintf(record, /n == 2048 ? sprintf(record, "kind from to key\\n") : &/')"
writing_fault "the number of listed states is the count" "$(within writing_write 's/    size_t length = /    size_t named = 0; for (size_t s = 0; s < n; s++) named += marks[s] != 0;\n&/; s/key.n", n)/key\\n", named)/')"
writing_fault "the names line without keys" 's/kind from to key/kind from to/'
writing_fault "marks exchanged" 's/TERMINAL, .T./CLOSED, 84/'
writing_fault "named states are marked" "$(within write_marked 's/marks\[s\] & mark/marks[s] >= mark/')"
writing_fault "falling states" "$(within write_marked 's/size_t s = 0; s < n; s++/size_t s = n; s-- > 0;/')"
writing_fault "the last state is left out" "$(within write_marked 's/s < n/s + 1 < n/')"
writing_fault "the last step is left out" 's/p < steps/p + 1 < steps/'
writing_fault "the ends of a step exchanged" 's/(unsigned)from\[p\], (unsigned)to\[p\]/(unsigned)to[p], (unsigned)from[p]/'
writing_fault "ends in fifteen bits" 's/(unsigned)to\[p\]/(unsigned)to[p] % 32768/'
writing_fault "every key 0" 's/(unsigned)key\[p\]/0u/'
writing_fault "the first key for every step" 's/(unsigned)key\[p\]/(unsigned)key[0]/'
writing_fault "keys in five bits" 's/(unsigned)key\[p\]/(unsigned)key[p] % 32/'
writing_fault "keys of two digits at most" 's/(unsigned)key\[p\]/(unsigned)(key[p] > 99 ? 99 : key[p])/'
writing_fault "marks without a dash for the key" 's/%c %zu - -/%c %zu -/'
writing_fault "steps equal but for the key are left out" "$(within writing_write 's/    for (size_t p = 0; p < steps; p++)/&\n        if (!(p > 0 \&\& from[p] == from[p - 1] \&\& to[p] == to[p - 1] \&\& key[p] != key[p - 1]))/')"
writing_fault "equal steps are written once" "$(within writing_write 's/    for (size_t p = 0; p < steps; p++)/&\n        if (!(p > 0 \&\& from[p] == from[p - 1] \&\& to[p] == to[p - 1] \&\& key[p] == key[p - 1]))/')"
writing_fault "no last newline" "$(within writing_write 's/    return length;/    return length - (steps > 0);/')"
call_fault "an exact fit is refused" 's/buf_len - \*at < length/buf_len - *at <= length/' buffers
few=1 call_fault "one byte short is taken" 's/buf_len - \*at < length/buf_len - *at + 1 < length/' buffers
call_fault "room for a count of four digits is asked for" 's/buf_len - \*at < length/buf_len - *at < length + (n < 10 ? 3 : n < 100 ? 2 : n < 1000 ? 1 : 0)/' buffers
call_fault "room for the names line alone is asked for" 's/buf_len - \*at < length/buf_len - *at + 9 < length/; s/memcpy(buf + \*at, record, length)/memcpy(buf + *at, record, buf_len - *at < length ? buf_len - *at : length)/' buffers
call_fault "a place past the end is taken" 's/\*at > buf_len || //' buffers
call_fault "the place is not brought on" "$(within radvoinis_write 's/    \*at += length;//')" buffers
call_fault "the place moves on a refusal" "$(within radvoinis_write 's/^    if (\*at > buf_len/    size_t was = *at; if (was \&\& buf_len \&\& was < buf_len \&\& buf_len - was < length) *at = buf_len;\n&/')" buffers
call_fault "written from the beginning" "$(within radvoinis_write 's/memcpy(buf + \*at/memcpy(buf/')" buffers
call_fault "a byte behind the record" "$(within radvoinis_write 's/^    \*at += length;/    if (*at + length < buf_len) buf[*at + length] = 0;\n&/')" buffers
call_fault "a byte before the record" "$(within radvoinis_write 's/^    \*at += length;/    if (*at) buf[*at - 1] = 10;\n&/')" buffers
call_fault "13 before 4" "$(within radvoinis_write 's/^    int number/    if (n \&\& n <= 2048 \&\& limit \&\& limit <= 8192 \&\& marks_len >= n \&\& from_len >= limit \&\& to_len >= limit \&\& key_len >= limit \&\& *at > buf_len) return RADVOINIS_REFUSED + 13;\n&/')" buffers
call_fault "a mark is cleared" "$(within radvoinis_write 's/^    \*at += length;/&\n    ((uint8_t *)marks)[0] \&= 7;/')" buffers
call_fault "the writer's marks too short by one" "$(within radvoinis_write 's/marks_len >= n/marks_len + 1 >= n/')" buffers
for table in from to key; do
    call_fault "the writer's $table too short by one" "$(within radvoinis_write "s/\b${table}_len >= limit/${table}_len + 1 >= limit/")" buffers
done
fault "what was written is not read: status" "$(within reading_line 's/    Update u = update_of(line, length, r->keyed);/&\n    if (u.kind == 67 \&\& number > 4) return 1;/')" library/reading.c buffers
fault "what was written is not read: listing" "$(within reading_line 's/    Update u = update_of(line, length, r->keyed);/&\n    if (u.kind == 67 \&\& number > 4) return 1;/')" lister/reading.c buffers

# the short calls
short_fault "one byte too few" 's/ + 1;/;/'
short_fault "a size for any n" "$(within radvoinis_tables_size 's/!states_in_bounds(n) || //')"
short_fault "a size for any limit" "$(within radvoinis_tables_size 's/ || !limit_in_bounds(limit)//')"
short_fault "2,049 states laid out" 's/n <= RADVOINIS_MAX_STATES/n <= RADVOINIS_MAX_STATES + 1/'
short_fault "2 before 1" "$(within radvoinis_tables_fresh '/BAD_LIMIT/d; s/^    if (!states_in_bounds(n)).*/    if (!limit_in_bounds(limit)) return RADVOINIS_REFUSED + RADVOINIS_BAD_LIMIT;\n&/')"
short_fault "memory that is too small is taken" "$(within radvoinis_tables_fresh 's/size < radvoinis_tables_size(n, limit)/size + 1 < radvoinis_tables_size(n, limit)/')"
short_fault "NULL is taken" "$(within radvoinis_tables_fresh 's/memory == NULL || //')"
short_fault "a refusal changes the struct" "$(within radvoinis_tables_fresh 's/^    if (memory == NULL/    t->steps = 0;\n&/')"
short_fault "an odd address is taken as it is" 's/ + (uintptr_t)memory % sizeof(uint16_t)//'
few=1 short_fault "two tables in one place" 's/t->to = take(&at, limit)/t->to = t->from, take(\&at, limit)/'
short_fault "a table past the memory" 's/t->visited = take(&at, visited_entries(n))/t->visited = take(\&at, n)/'
short_fault "the visited marks of n/16 states, rounded down" "$(within visited_entries 's/ + (n % 16 > 0)//')"
short_fault "the visited marks lent with an entry too few" "$(within send 's/visited_entries(t->n)/visited_entries(t->n - 1)/')"
short_fault "the visited marks checked with an entry too few" "$(within radvoinis_check 's/visited_entries(t->n)/visited_entries(t->n - 1)/')"
short_fault "a limit's table for each state" 's/t->out_next = take(&at, limit)/t->out_next = take(\&at, n)/'
short_fault "the steps are not begun anew" 's/    t->steps = 0;//'
short_fault "visited marks are left" "$(within radvoinis_tables_fresh 's/^    return 0;/    t->visited[0] = 1;\n&/')"
short_fault "no successors are taken for the first step" 's/    memset(t->successor, 0xff.*//'
short_fault "memory behind the tables is cleared" 's/t->key + limit - /t->key + limit + 1 - /'
short_fault "the keys are not cleared" 's/t->key + limit - /t->key - /'
short_fault "keys and marks in one place" 's/t->key = t->marks + n/t->key = t->marks/'
short_fault "a byte too few for a key" 's/ + (size_t)limit \* STEP_BYTES/ + (size_t)limit * STEP_BYTES - 1/'
few=1 short_fault "a close sent for a terminal mark" "s/send(t, 'T', state, 0, 0)/send(t, 'C', state, 0, 0)/"
short_fault "the ends of a step exchanged" "s/send(t, 'E', from, to, 0)/send(t, 'E', to, from, 0)/"
short_fault "the ends of a step by key exchanged" "s/send(t, 'E', from, to, key)/send(t, 'E', to, from, key)/"
short_fault "a step by key 0 alone" "s/send(t, 'E', from, to, key)/send(t, 'E', from, to, 0)/"
short_fault "a step without a key by key 1" "s/send(t, 'E', from, to, 0)/send(t, 'E', from, to, 1)/"
short_fault "a key cut to a byte" 's/second, by_key, t->status/second, (uint8_t)by_key, t->status/'
short_fault "states in sixteen bits" 's/kind, first, second,/kind, (uint16_t)first, (uint16_t)second,/'
short_fault "the number of steps is not brought on" 's/    return radvoinis_update(t->n, t->limit, &t->steps,/    size_t steps = t->steps; return radvoinis_update(t->n, t->limit, \&steps,/'
short_fault "queue and visited marks exchanged" "$(within send 's/t->queue/t->other/; s/t->visited/t->queue/; s/t->other/t->visited/')"
short_fault "lists in and out exchanged" "$(within send 's/t->in_next/t->other/; s/t->out_next/t->in_next/; s/t->other/t->out_next/')"
short_fault "the question of another state" 's/t->status, t->n, state)/t->status, t->n, state + 1)/'
short_fault "the question forgets the steps" "$(within radvoinis_status_of 's/t->limit, t->steps/t->limit, 0/')"
short_fault "the check of other lists" "$(within radvoinis_check 's/t->in_head/t->out_head/')"
short_fault "the check of other keys" "$(within radvoinis_check 's/t->key/t->marks/')"
short_fault "the record of other keys" "$(within radvoinis_save 's/t->key/(const uint8_t *)t->to/')"
short_fault "the record of no steps" "$(within radvoinis_save 's/t->limit, t->steps/t->limit, 0/')"
short_fault "the record's steps backwards" "$(within radvoinis_save 's/t->from/t->other/; s/t->to,/t->from,/; s/t->other/t->to/')"
short_fault "a buffer of one byte more" "$(within radvoinis_save 's/buf, len, at/buf, len + 1, at/')"

echo "$passed passed, $failed failed"
[ "$failed" -eq 0 ]
