# What run.sh and convert.sh share; they source it. Every run has its programs and its input in the one folder $work and an empty
# environment: the alignment of the stack moves with them, and instructions with the alignment.

# ready FOLDER PROGRAM..: the programs in $work/plain and $work/proved, those of FOLDER or, where it is empty, proved and built.
ready() {
    local folder=$1 program
    shift
    if [ -z "$folder" ]; then
        tests/build.sh "$@" 2> /dev/null
        folder=target/bin
    fi
    (cd reference && cargo build --release --offline --quiet)
    work=$(mktemp -d)
    trap 'rm -rf "$work"' EXIT
    mkdir "$work/plain" "$work/proved"
    for program in "$@"; do
        cp "reference/target/release/$program" "$work/plain"
        cp "$folder/$program" "$work/proved"
    done
}

# same_answers INPUT PROGRAM: both programs print the same of it, and no record is bad
same_answers() {
    local side
    for side in plain proved; do (cd "$work" && "./$side/$2" < "$1" > "$side.out"); done
    cmp "$work/plain.out" "$work/proved.out"
    ! grep -q '^bad record' "$work/proved.out"
}

# run INPUT COMMAND..: its output goes nowhere, its errors into the file `said`; `environment` holds what `env` sets.
environment=()
run() {
    local input=$1
    shift
    (cd "$work" && exec env -i "${environment[@]}" "$@" < "$input" > /dev/null 2> said)
}

# instructions SIDE INPUT PROGRAM [WORD]: by callgrind
instructions() {
    local side=$1 input=$2
    shift 2
    run "$input" "$(command -v valgrind)" --tool=callgrind --callgrind-out-file=/dev/null "./$side/$1" "${@:2}"
    sed -n 's/.*Collected : //p' "$work/said"
}

# kilobytes SIDE INPUT PROGRAM [WORD]: the most memory that a run holds
kilobytes() {
    run "$2" "$(type -P time)" -f %M "./$1/$3" "${@:4}"
    tail -n 1 "$work/said"
}

# timed SIDE INPUT PROGRAM [WORD]: one run; its nanoseconds are kept in least[SIDE INPUT PROGRAM] where no run took less.
declare -A least
timed() {
    local key="$1 $2 $3" before after
    before=$(date +%s%N)
    run "$2" "./$1/$3" "${@:4}"
    after=$(date +%s%N)
    if [ $((after - before)) -lt "${least[$key]:-$((after - before + 1))}" ]; then least[$key]=$((after - before)); fi
}

# interleaved RUNS INPUT PROGRAM [WORD]: the plain and the proved program in turn, so that other work on the machine meets both
interleaved() {
    local i side
    for ((i = 0; i < $1; i++)); do
        for side in plain proved; do timed $side "${@:2}"; done
    done
}

# quotient A B: two decimals, or - where B is not above 0
quotient() {
    awk -v a="$1" -v b="$2" 'BEGIN { if (b > 0) printf "%.2f", a / b; else printf "-" }'
}

# budget NAME FIGURE MOST: whether it is met; `failed` is 1 from the first on that is not.
failed=0
budget() {
    local verdict=met
    if awk -v a="$2" -v b="$3" 'BEGIN { exit !(a > b) }'; then
        verdict="NOT met"
        failed=1
    fi
    printf '%-44s %10s, at most %8s: %s\n' "$1" "$2" "$3" "$verdict"
}
