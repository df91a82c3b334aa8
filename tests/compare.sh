#!/usr/bin/env bash
# The proved programs against the second implementation (reference/), byte for byte.
#   tests/compare.sh                    the fixed set that the gate runs
#   tests/compare.sh FROM TO [CALLS]    for each seed FROM to TO two streams of CALLS calls (5,000) for replay, one of
#                                       them with states that are handed in
# The fixed set begins with buffers of other lengths (limit_cases, ground_cases), which no stream can give: the output stored beside the
# proved program must be what the second implementation prints, and the proved program must print the same.
# The fixed set ends with archives that convert takes there and back.
# A difference prints the seed and the first differing line. At the end: how often each number was answered.
# The proved programs stand in target/bin (tests/build.sh); the second implementation is built here.
set -u
cd "$(dirname "$0")/.." || exit 1
proved=$PWD/target/bin
plain=$PWD/reference/target/release
(cd reference && cargo build --release --offline --quiet) || exit 1
work=$(mktemp -d)
trap 'rm -rf "$work"' EXIT
passed=0
failed=0

# Runs PROGRAM of the folder $1 in $work and stores what it prints, and its exit status, under the name $3.
run() {
    (cd "$work" && "$1/$2" < stdin > "$3" 2> "$3.error"; echo "exit status $?" >> "$3")
}

# same WHAT EXPECTED FOUND: two files that must not differ.
same() {
    if cmp -s "$2" "$3"; then
        passed=$((passed + 1))
    else
        failed=$((failed + 1))
        echo "$1 differs:"
        diff "$2" "$3" | head -n 4 | cut -c 1-400
    fi
}

# compare PROGRAM SEED CALLS [OPTION...]: one stream, both implementations.
compare() {
    local program=$1 stream="${*:2}"
    rm -f "$work"/*
    "$plain/streams" "$2" "$3" "$work" "${@:4}" || { failed=$((failed + 1)); return; }
    run "$plain" "$program" expected
    run "$proved" "$program" found
    [ "$program" = replay ] && cat "$work/expected" >> "$answers"
    same "$program on the stream of seed $stream" "$work/expected" "$work/found"
}

# converted WORD FROM TO: convert, given this word, on the file FROM; both implementations write and say the same. What
# they write is left in TO.
converted() {
    local folder
    for folder in "$plain" "$proved"; do
        (cd "$work" && "$folder/convert" "$1" < "$2" > "$3.$(basename "$folder")" 2> error.$(basename "$folder"))
    done
    same "convert $1 on $2 of the archive $archive" "$work/$3.release" "$work/$3.bin"
    same "what convert $1 says on $2 of the archive $archive" "$work/error.release" "$work/error.bin"
    mv "$work/$3.bin" "$work/$3"
}

# archive SEED PACKETS [--damaged]: an archive of the first edition there and back.
archive() {
    local archive="$*"
    rm -f "$work"/*
    "$plain/streams" --archive "$1" "$2" "$work" "${@:3}" || { failed=$((failed + 1)); return; }
    converted first archive first
    converted second archive there
    converted first there back
    [ $# -gt 2 ] || same "there and back, the archive $archive" "$work/archive" "$work/back"
}

# Buffers of other lengths.
lengths() {
    : > "$work/stdin"
    local cases
    for cases in limit_cases ground_cases; do
        run "$plain" "$cases" expected
        run "$proved" "$cases" found
        (cat "crates/$cases/stdout" && echo "exit status 0") > "$work/stored"
        same "the stored output of $cases" "$work/expected" "$work/stored"
        same "$cases" "$work/expected" "$work/found"
    done
}

# The gate's set: the cases of cause 1, ordinary streams, and those that reach what an ordinary one does not.
fixed() {
    local seed
    lengths
    compare replay 70 0 --limits
    for seed in $(seq 71 90); do
        compare replay "$seed" 2000 --states
    done
    for seed in $(seq 1 40); do
        compare replay "$seed" 2000
    done
    for seed in $(seq 41 60); do
        compare minute "$seed" 2000 --minute
    done
    compare replay 61 1000 --million
    compare minute 62 0 --minute --million
    compare replay 63 500 --wrong-tables
    compare minute 64 500 --minute --wrong-tables
    compare replay 65 0 --full 20
    compare replay 92 0 --busy
    compare replay 93 0 --busy
    compare replay 66 200 --frames 300
    compare minute 67 0 --minute --frames 65600
    archive 68 100000
    archive 69 20000 --damaged
}

answers=$(mktemp)
trap 'rm -rf "$work" "$answers"' EXIT
if [ $# -ge 2 ]; then
    for seed in $(seq "$1" "$2"); do
        compare replay "$seed" "${3:-5000}"
        compare replay "$seed" "${3:-5000}" --states
    done
else
    fixed
fi
"$plain/causes" < "$answers"
echo "$passed passed, $failed failed"
[ "$failed" -eq 0 ]
