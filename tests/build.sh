#!/usr/bin/env bash
# Puts the proved programs into target/bin, where the tests and README's examples look for them.
#   tests/build.sh NAME..     proves and builds these programs by `rt run`, on an empty input
#   tests/build.sh            takes all programs, as `rt ci` has proved and built them
set -eu
cd "$(dirname "$0")/.."
for program in "$@"; do
    (cd "crates/$program" && rt run < /dev/null > /dev/null)
done
if [ $# = 0 ]; then
    for main in crates/*/src/main.rt; do
        set -- "$@" "$(basename "${main%/src/main.rt}")"
    done
fi
mkdir -p target/bin
for program in "$@"; do
    cp "crates/$program/out/$program" target/bin/
done
