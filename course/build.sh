# To be sourced with $here set to this folder: builds draw into $work, a folder of its own that goes when the script ends.
work=${TMPDIR:-/tmp}/draw.$$
(umask 077 && mkdir "$work") || exit 1
trap 'rm -rf "$work"' EXIT
trap 'exit 1' HUP INT TERM
second=$here/../second
"${CC:-cc}" -std=c11 -O2 -Wall -Wextra -Werror -I "$second" -o "$work/draw" "$here/draw.c" "$second/script.c" "$second/store.c" ||
    { echo "course: draw does not build" >&2; exit 1; }
