#!/usr/bin/env bash
# Instructions (callgrind) and time of convert, both ways, and its memory: the proved program beside the plain one, same
# archives, same machine. Exits 1 where the budget of time is not met.
#   bench/convert.sh [FOLDER]
# Measures the program convert of FOLDER; without it it is proved and built. Needs Debian's packages valgrind and time.
# Instructions: an archive of 100,000 packets, by the packet. Time: 37 such archives in a row, a gigabyte, the least of 15 runs.
set -eu
folder=${1:+$(realpath "$1")}
cd "$(dirname "$0")/.."
source bench/measure.sh
ready "$folder" convert
packets=100000
runs=15
reference/target/release/streams --archive 1 $packets "$work"
mv "$work/archive" "$work/second"
"$work/plain/convert" second < "$work/second" > "$work/first" 2> /dev/null
for way in second first; do
    for _ in {1..37}; do cat "$work/$way"; done > "$work/$way.gigabyte"
    interleaved $runs $way.gigabyte convert $way
done

# by_packet SIDE WAY: instructions
by_packet() {
    echo $(($(instructions "$1" "$2" convert "$2") / packets))
}

# milliseconds SIDE WAY: of a gigabyte
milliseconds() {
    echo $((${least["$1 $2.gigabyte convert"]} / 1000000))
}

# row NAME FUNCTION WAY: of both programs, and their ratio
row() {
    local plain proved
    plain=$($2 plain "$3")
    proved=$($2 proved "$3")
    printf '%-44s %12s %12s %8s\n' "$1" "$plain" "$proved" "$(quotient "$proved" "$plain")"
}

# ratio WAY: of the times
ratio() {
    quotient "$(milliseconds proved "$1")" "$(milliseconds plain "$1")"
}

printf '%-44s %12s %12s %8s\n' "" plain proved ratio
for way in second first; do
    row "to the $way, instructions a packet" by_packet $way
    row "to the $way, milliseconds a gigabyte" milliseconds $way
done
printf '%-44s %12s %12s\n' kilobytes "$(kilobytes plain second.gigabyte convert second)" \
    "$(kilobytes proved second.gigabyte convert second)"

printf '\nBudgets, time by that of plain Rust\n'
budget "to the second edition" "$(ratio second)" 0.9
budget "to the first edition" "$(ratio first)" 0.9
exit $failed
