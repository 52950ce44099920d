# To be sourced, with $top set to this folder: what bench and c/check.sh ask of the kit.

# build FILE NAME WORD: in the folder of the crate NAME, `rt WORD` proves it and makes out/NAME or out/libNAME.a, which is copied to
# target/FILE, where that is missing or older than a crate. (`rt run` runs a program once it is built: with nothing to read.)
build() {
    made=$top/target/$1
    if [ -e "$made" ] && [ -z "$(find "$top/crates" "$top/crates.txt" -name out -prune -o -newer "$made" -type f -print | head -n 1)" ]; then return; fi
    echo "building $(basename "$made") ..." >&2
    out=$top/crates/$2/out
    case $3 in lib) out=$out/lib$2.a ;; *) out=$out/$2 ;; esac
    log=$(mktemp)
    if ! (cd "$top/crates/$2" && rt "$3" && mkdir -p "$(dirname "$made")" && cp "$out" "$made") >"$log" 2>&1 </dev/null; then
        tail -n 20 "$log" >&2
        rm -f "$log"
        return 1
    fi
    rm -f "$log"
}
