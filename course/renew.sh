#!/bin/sh
# After a change of the rules or of a lesson's script, or for a new lesson: what the program `runs` has of it, its printout from the
# second program, and its picture.
CDPATH='' cd -- "$(dirname -- "$0")" || exit 1
here=.
. ./build.sh
data=../crates/runs/data
rm -f "$data"/course-*
for script in [0-9]*/script; do
    cp "$script" "$data/course-${script%/script}.script" || exit 1
done
sh ../second/renew.sh || exit 1
for script in [0-9]*/script; do
    lesson=${script%/script}
    cp "$data/course-$lesson.expect" "$lesson/printout" &&
        "$work/draw" "$script" "$lesson/printout" >"$lesson/picture.svg" || exit 1
done
