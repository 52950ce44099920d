#!/bin/sh
# After a change of the rules or of a script: every stored printout anew, and the list and the count that the program `runs` has of
# them. The page's own printout stays as it was typed.
LC_ALL=C
export LC_ALL
CDPATH='' cd -- "$(dirname -- "$0")" || exit 1
. ./build.sh
cd ../crates/runs/data || exit 1
for script in *.script; do
    name=${script%.script}
    [ "$name" = example ] || "$work/second" <"$script" >"$name.expect" || exit 1
done
ls | sed -n 's/\.script$//p' >list
count=$(grep -c '' list)
echo "$count of $count scripts agree" >../stdout
