#!/bin/sh
# Both programs on fresh scripts: sh second/compare.sh N [SEED] generates N scripts of every kind from SEED on (from the clock
# where none is given), runs ./bench and the second program on each, and reports how many printouts differ.
count=${1:-500}
seed=${2:-$(date +%s)}
CDPATH='' cd -- "$(dirname -- "$0")" || exit 1
. ./build.sh
printf '' | ../bench >/dev/null || exit 1

echo "seeds from $seed"
kinds='mixed bad full damaged rounds long'
done=0
differ=0
while [ "$done" -lt "$count" ]; do
    for kind in $kinds; do
        [ "$done" -lt "$count" ] || break
        "$work/gen" "$kind" "$seed" >"$work/script" || exit 1
        "$work/second" <"$work/script" >"$work/theirs" || exit 1
        ../bench "$work/script" >"$work/ours" || exit 1
        if ! cmp -s "$work/ours" "$work/theirs"; then
            [ "$differ" -gt 0 ] || echo "first difference: gen $kind $seed: $(cmp "$work/ours" "$work/theirs" 2>&1 | head -n 1)"
            differ=$((differ + 1))
        fi
        done=$((done + 1))
    done
    seed=$((seed + 1))
done
echo "$done scripts, $differ differences"
[ "$differ" -eq 0 ]
