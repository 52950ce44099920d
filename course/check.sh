#!/bin/sh
# Each lesson has its script, its printout, its page and its picture; the program `runs` has the same script and printout, and the
# picture is what draw draws. That the printouts are right is second/check.sh's part.
LC_ALL=C
export LC_ALL
CDPATH='' cd -- "$(dirname -- "$0")" || exit 1
here=.
. ./build.sh
data=../crates/runs/data

fails() {
    echo "course: $1"
    exit 1
}
count=0
for folder in [0-9]*/; do
    lesson=${folder%/}
    for file in script printout README.md picture.svg; do
        [ -s "$lesson/$file" ] || fails "$lesson has no $file"
    done
    cmp "$lesson/script" "$data/course-$lesson.script" || fails "$lesson: runs has another script"
    cmp "$lesson/printout" "$data/course-$lesson.expect" || fails "$lesson: runs has another printout"
    "$work/draw" "$lesson/script" "$lesson/printout" | cmp - "$lesson/picture.svg" || fails "$lesson: the picture is not of this run"
    count=$((count + 1))
done
[ "$(grep -c '^course-' "$data/list")" -eq "$count" ] || fails "runs has other lessons"
[ "$count" -ge 9 ] || fails "only $count lessons"
echo "course: $count lessons agree"
