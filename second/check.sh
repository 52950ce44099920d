#!/bin/sh
# Builds second and gen, and holds each printout against the one kept beside its script, where the program `runs` has them.
# example.expect was typed from the page; gen-KIND-SEED.script must be what gen writes; list names them all.
LC_ALL=C
export LC_ALL
CDPATH='' cd -- "$(dirname -- "$0")" || exit 1
. ./build.sh

differs() {
    echo "second: $1 differs"
    cmp "$2" "$3"
    exit 1
}
scripts=../crates/runs/data
count=0
[ -f "$scripts/example.expect" ] || { echo "second: the page's example is missing"; exit 1; }
for script in "$scripts"/*.script; do
    name=$(basename "$script" .script)
    "$work/second" <"$script" >"$work/printout" || { echo "second: $name failed"; exit 1; }
    cmp -s "$work/printout" "$scripts/$name.expect" ||
        differs "$name" "$work/printout" "$scripts/$name.expect"
    echo "$name" >>"$work/list"
    case $name in
    gen-*)
        rest=${name#gen-}
        "$work/gen" "${rest%-*}" "${rest##*-}" >"$work/script" || exit 1
        cmp -s "$work/script" "$script" || differs "$name.script" "$work/script" "$script"
        ;;
    esac
    count=$((count + 1))
done
cmp -s "$work/list" "$scripts/list" || differs list "$work/list" "$scripts/list"
echo "second: $count scripts agree"
