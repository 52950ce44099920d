# To be sourced in this folder: builds second and gen into $work, a folder of its own that goes when the script ends.
work=${TMPDIR:-/tmp}/second.$$
(umask 077 && mkdir "$work") || exit 1
trap 'rm -rf "$work"' EXIT
trap 'exit 1' HUP INT TERM
# compile PROGRAM.c FILE.c ..
compile() {
    "${CC:-cc}" -std=c11 -O2 -Wall -Wextra -Werror -o "$work/${1%.c}" "$@" store.c ||
        { echo "second: ${1%.c} does not build"; exit 1; }
}
compile second.c script.c
compile gen.c draft.c
