#!/usr/bin/env bash
# Instructions (callgrind) and time of an event, a close, a package, an ask and a load, and the memory of a run: the proved
# programs beside the second implementation in plain Rust, same streams, same machine. Exits 1 where a budget is not met.
#   bench/run.sh [FOLDER]
# Measures the programs minute and replay of FOLDER; without it they are proved and built. Needs Debian's packages valgrind and
# time. Each figure is the difference of two streams, with the work and without it (streams.py), by how often it is done; times
# are the least of 25 runs.
set -eu
folder=${1:+$(realpath "$1")}
cd "$(dirname "$0")/.."
source bench/measure.sh
ready "$folder" minute replay
cp reference/target/release/minute_judged "$work/plain"
closes=2000
repeats=20
runs=25
bytes=62984
words=20995

# stream NAME OPTION..: a stream of the second implementation's generator
stream() {
    reference/target/release/streams 2 0 "$work" --minute "${@:2}"
    mv "$work/stdin" "$work/$1"
}
stream events.with --million
: > "$work/events.less"
stream filled.with --full 500
stream filled.less --unclosed 500
python3 bench/streams.py "$work" $closes $repeats
for input in "$work"/*.with "$work"/*.less; do same_answers "$input" replay; done
events=$(($(stat -c %s "$work/events.with") / 8))

# counted SIDE STREAM PROGRAM TIMES: instructions of the work, once
counted() {
    echo $((($(instructions "$1" "$2.with" "$3") - $(instructions "$1" "$2.less" "$3")) / $4))
}

# row NAME STREAM PROGRAM TIMES: instructions of both and their ratio; the proved ones are kept in proved[STREAM].
declare -A proved
row() {
    local plain
    plain=$(counted plain "${@:2}")
    proved[$2]=$(counted proved "${@:2}")
    printf '%-44s %12s %12s %8s\n' "$1" "$plain" "${proved[$2]}" "$(quotient "${proved[$2]}" "$plain")"
}

# rows TITLE: a table of instructions
rows() {
    printf '%-44s %12s %12s %8s\n' "$1" plain proved ratio
    row "event (minute)" events minute "$events"
    row "close, 704 filled slots (minute)" filled minute 500
    row "close, empty slots (minute)" closes minute $closes
    row "close, 704 filled slots, printed (replay)" printed replay $closes
    row "704 filled slots above empty ones (replay)" fuller replay $closes
    row "package of 62,984 bytes, right sum" package replay $repeats
    row "package of 62,984 bytes, wrong sum" wrong replay $repeats
    row "ask over 62,984 bytes" ask replay $repeats
    row "load of the whole table, y 0" load0 replay $repeats
    row "load of 20,995 words, y 1" load1 replay $repeats
    row "load of 20,995 words, y 2" load2 replay $repeats
}

# passed SIDE STREAM PROGRAM TIMES: nanoseconds of the work, once
passed() {
    echo $(((${least["$1 $2.with $3"]} - ${least["$1 $2.less $3"]}) / $4))
}

# time_row NAME STREAM PROGRAM TIMES: the same in nanoseconds
time_row() {
    local plain proved i
    for ((i = 0; i < runs; i++)); do
        interleaved 1 "$2.with" "$3"
        interleaved 1 "$2.less" "$3"
    done
    plain=$(passed plain "${@:2}")
    proved=$(passed proved "${@:2}")
    printf '%-44s %12s %12s %8s\n' "$1" "$plain" "$proved" "$(quotient "$proved" "$plain")"
}

# memory NAME INPUT PROGRAM
memory() {
    printf '%-44s %12s %12s\n' "$1" "$(kilobytes plain "$2" "$3")" "$(kilobytes proved "$2" "$3")"
}

# The C library copies and fills long parts by one instruction that callgrind counts once for each byte; told not to, by others.
threshold=1000000000
environment=("GLIBC_TUNABLES=glibc.cpu.x86_rep_movsb_threshold=$threshold:glibc.cpu.x86_rep_stosb_threshold=$threshold")
rows "instructions, copies by vectors"
environment=()
echo
rows instructions
printf '%-44s %12s\n' "event, plain by value and judged" "$(counted plain events minute_judged "$events")"

printf '\n%-44s %12s %12s %8s\n' nanoseconds plain proved ratio
time_row "event (minute)" events minute "$events"
time_row "close, empty slots (minute)" closes minute $closes
time_row "close, 704 filled slots, printed (replay)" printed replay $closes

printf '\n%-44s %12s %12s\n' kilobytes plain proved
memory "no input (minute)" events.less minute
memory "events (minute)" events.with minute
memory "closes (minute)" filled.with minute

printf '\nBudgets, instructions\n'
budget "event" "${proved[events]}" 550
budget "close, 704 filled slots" "${proved[filled]}" 52000
budget "package, right sum, 1 a byte" "${proved[package]}" $bytes
budget "ask, 1 a byte" "${proved[ask]}" $bytes
budget "load, y 0, 0.5 a byte" "${proved[load0]}" $(((bytes + 1) / 2))
budget "load, y 1, 6 a word" "${proved[load1]}" $((6 * words))
budget "load, y 2, 6 a word" "${proved[load2]}" $((6 * words))
exit $failed
