#!/bin/sh
# The library for C beside the second program, on scripts of each kind from SEED (1) to SEED + N - 1 (N: 40): sh c/check.sh [N [SEED]].
# Builds the library first where it is missing or older than a crate (the first time, all is proved: some minutes).
top=$(CDPATH='' cd -- "$(dirname -- "$0")/.." && pwd) || exit 1
count=${1:-40}
seed=${2:-1}
. "$top/kit.sh"
cd "$top/second" || exit 1
. ./build.sh

# The library is for x86-64, and so is the kit.
compiler=${CC:-cc}
if [ "$(uname -m)" != x86_64 ]; then
    echo "c: skipped, since this is no x86-64 machine"
    exit 0
fi

build staticlib/libcranktimber.a cranktimber_c lib || exit 1
"$compiler" -std=c11 -O2 -Wall -Wextra -Werror -o "$work/test" ../c/test.c store.c "$top/target/staticlib/libcranktimber.a" ||
    { echo "c: the test does not build"; exit 1; }
last=$((seed + count))
while [ "$seed" -lt "$last" ]; do
    for kind in mixed bad full rounds long; do
        "$work/gen" "$kind" "$seed" || exit 1
    done
    seed=$((seed + 1))
done >"$work/scripts"
"$work/test" <"$work/scripts"
