#!/bin/sh
# How fast is bench, as a ratio to the second program: ten scripts of 8,000 steps, twenty times over, best of ten, in one run.
# Only on x86-64, for which bench is compiled.
[ "$(uname -m)" = x86_64 ] || { echo "speed: this is no x86-64 machine"; exit 0; }
CDPATH='' cd -- "$(dirname -- "$0")" || exit 1
. ./build.sh
printf '' | ../bench >/dev/null || exit 1
cp ../target/bin/bench "$work/bench"
for seed in 0 1 2 3 4 5 6 7 8 9; do
    "$work/gen" long "$seed" >"$work/$seed.script" || exit 1
done

# milliseconds for twenty rounds of the ten scripts
rounds() {
    from=$(date +%s%N)
    i=0
    while [ "$i" -lt 20 ]; do
        for script in "$work"/*.script; do "$1" <"$script" >/dev/null; done
        i=$((i + 1))
    done
    echo $((($(date +%s%N) - from) / 1000000))
}
# in turns, so that both meet the same machine
ours=$(rounds "$work/bench")
theirs=$(rounds "$work/second")
for _ in 2 3 4 5 6 7 8 9 10; do
    now=$(rounds "$work/bench")
    [ "$now" -ge "$ours" ] || ours=$now
    now=$(rounds "$work/second")
    [ "$now" -ge "$theirs" ] || theirs=$now
done
echo "bench $ours ms, second program $theirs ms, ratio $(awk "BEGIN { printf \"%.2f\", $ours / $theirs }")"
