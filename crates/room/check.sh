#!/bin/sh
# Is the room's layout everywhere that of crates/room/layout.txt? The kinds' words must fill the room, each word once.
CDPATH='' cd -- "$(dirname -- "$0")/../.." || exit 1
LC_ALL=C awk '
function wrong(text) { print "room: " text; bad = 1; exit 1 }
function same(what, is, due) { if (is != due) wrong(what ": " is ", and in the table " due) }

# ---- The number of an expression, with the names of one language ----
function value(language, text,   v) {
    gsub(/×/, "*", text)
    while (match(text, /[0-9],[0-9][0-9][0-9]/)) text = substr(text, 1, RSTART) substr(text, RSTART + 2)
    gsub(/[ \t\r\n]/, "", text)
    lang = language; given = rest = text; v = sum()
    if (rest != "" || text == "") wrong("no number: " language ": " text)
    return v
}
function sum(   v) {
    v = product()
    while (rest ~ /^[+-]/) if (next_char() == "+") v += product(); else v -= product()
    return v
}
function product(   v) {
    v = factor()
    while (rest ~ /^\*/) { next_char(); v *= factor() }
    return v
}
function factor(   v, name) {
    if (rest ~ /^\(/) { next_char(); v = sum(); if (next_char() != ")") wrong("a bracket is open: " rest); return v }
    if (!match(rest, /^[A-Za-z0-9_]+/)) wrong("no number in " lang ": " given)
    name = substr(rest, 1, RLENGTH); rest = substr(rest, RLENGTH + 1)
    if (name ~ /^[0-9]+$/) return name + 0
    if (!((lang, name) in number)) wrong("no such name: " name " (" lang ")")
    return number[lang, name]
}
function next_char(   c) { c = substr(rest, 1, 1); rest = substr(rest, 2); return c }

# ---- Parts of a file ----
function after(file, start, end,   i, text) {
    i = index(whole[file], start)
    if (i == 0) wrong(file " has no " start)
    text = substr(whole[file] "\n", i + length(start))
    if (index(substr(whole[file], i + 1), start) > 0) wrong(file " has twice " start)
    i = index(text, end)
    if (i == 0) wrong(file " does not end " start)
    return substr(text, 1, i - 1)
}
# The value at n of a ladder, of which words and brackets are away: bound, value, bound, value, .., and the value past the last bound.
function rung(language, text, n,   item, count, i) {
    count = split(text, item, " ")
    if (count % 2 == 0) wrong("no ladder: " text)
    for (i = 1; i < count; i += 2) if (n < item[i] + 0) return value(language, item[i + 1])
    return value(language, item[count])
}
function antt_ladder(name,   text) {
    text = after(layout, "\n" name " n =", "\n\n")
    gsub(/cond \(ltb n|[()]/, " ", text)
    return text
}
# The word of kind n in the code, with its indices named i1, i2, ..: the arm of word_of, and in it the words of a server and the like.
function code_word(n,   text, args, arg, type, count, k, i, name, call) {
    name = name_of[n]
    text = after(code, "fn word_of(c: Cell)", "\n}\n")
    gsub(/[ \n]+/, " ", text)
    if (!match(text, "Cell::" name "(\\([a-z, ]*\\))? => ")) wrong("word_of has no " name)
    args = substr(text, RSTART, RLENGTH); text = substr(text, RSTART + RLENGTH)
    sub(/, (Cell::.*|} *$)/, "", text)
    while (match(text, /[a-z]+_at\([a-z, ]*\)/)) {
        call = substr(text, RSTART, RLENGTH)
        text = substr(text, 1, RSTART - 1) helper(call) substr(text, RSTART + RLENGTH)
    }
    if (args !~ /\(/) return text
    sub(/^[^(]*\(/, "", args); sub(/\).*/, "", args)
    count = split(args, arg, ", ")
    split(types_of[n], type, ", ")
    k = 0
    for (i = 1; i <= count; i++) {
        if (type[i] == "Server") { gsub(arg[i] "\\.hall\\.index", "i" (k + 1), text); gsub(arg[i] "\\.partition\\.index", "i" (k + 2), text); k += 2 }
        else { gsub("(^|[^a-z])" arg[i] "\\.index", " i" (k + 1), text); k++ }
    }
    indices_of[n] = k
    return text
}
# the body of a function such as server_at, which a call names with the names of its own parameters
function helper(call,   name, text, head, names) {
    name = call; sub(/\(.*/, "", name)
    text = after(code, "fn " name "(", "\n}\n")
    head = text; sub(/\).*/, "", head); gsub(/: [A-Za-z]+/, "", head)
    names = call; sub(/^[^(]*\(/, "", names); sub(/\)$/, "", names)
    same(code " " call, names, head)
    sub(/^[^{]*\{[^}]*\}[^{]*\{/, "", text)
    gsub(/[ \n]+/, " ", text)
    return "(" text ")"
}
function each_rung(what, language, text, column,   n) {
    for (n = 0; n < kinds; n++) same(what " of " name_of[n], rung(language, text, n), at[n, column])
}

# ---- What is held to the table ----
function read_sizes(   i, v, n, text, book) {
    book = "crates/book/src/lib.rt"
    text = " HALLS =" after("second/store.h", "enum { HALLS =", "}")
    for (i = 1; i <= sizes; i++) {
        v = value("book", after("crates/book/specs/Sizes.antt", "\n" size_book[i] " =", "\n"))
        same(book " " size_code[i], value("code", after(book, "const " size_code[i] ": usize =", ";")), v)
        if (!match(text, "[ ,]" size_c[i] " = [0-9]+")) wrong("second/store.h has no " size_c[i])
        n = substr(text, RSTART, RLENGTH); sub(/.*= /, "", n)
        same("second/store.h " size_c[i], n + 0, v)
        take_size(i, v)
    }
}
function take_size(i, v) { number["book", size_book[i]] = number["code", size_code[i]] = number["c", size_c[i]] = v }

# what is said in names: Layout, the code and c/test.c, with the sizes as they are taken and that number of words in c/cranktimber.h
function names(c_words,   i, j, k, l, n, v, w, text, item, count, last, most, owner, filled, ladder) {
    for (i = 1; i <= words; i++) {
        v = value("book", word_is[i])
        same(layout " " word_book[i], value("book", after(layout, "\n" word_book[i] " =", "\n\n")), v)
        same(code " " word_code[i], value("code", after(code, "const " word_code[i] ": usize =", ";")), v)
        number["book", word_book[i]] = number["code", word_code[i]] = v
    }
    size = number["book", "size"]
    for (n = 0; n < kinds; n++) for (i = 0; i <= 8; i++) at[n, i] = value("book", text_of[n, i])

    # first words, steps and counts
    text = after(layout, "\nbase n =", "\n\n")
    sub(/^[^(]*\(/, "", text); sub(/∷ *\[\].*/, "", text); gsub(/∷/, "|", text)
    same(layout " base, numbers", split(text, item, "|"), kinds)
    for (n = 0; n < kinds; n++) same(layout " base of " name_of[n], value("book", item[n + 1]), at[n, 0])
    for (i = 1; i <= offsets; i++) number["code", offset[i]] = value("code", after(code, "const " offset[i] ": usize =", ";"))
    for (n = 0; n < kinds; n++) {
        text = code_word(n)
        for (k = 0; k <= indices_of[n]; k++) {
            for (i = 1; i <= 4; i++) number["code", "i" i] = i == k
            v = value("code", text) - at[n, 0]
            same(code " word_of " name_of[n] (k > 0 ? ", index " k : ""), v, k == 0 ? 0 : k == 4 ? 1 : at[n, k])
        }
    }
    split("step_i step_j step_k count_i count_j count_k count_l", ladder, " ")
    for (i = 1; i <= 7; i++) each_rung(layout " " ladder[i], "book", antt_ladder(ladder[i]), i)
    # cells that share a word need a ladder of their own in Layout
    for (n = 0; n < kinds; n++) if (at[n, 8] != 1) { each_rung(layout " per_word", "book", antt_ladder("per_word"), 8); break }

    # each word is that of one kind
    for (n = 0; n < kinds; n++) {
        last = 4
        while (last > 1 && text_of[n, 3 + last] == "1") last--
        for (i = 1; i <= 4; i++) most[i] = i == last ? at[n, 3 + i] / at[n, 8] : at[n, 3 + i]
        for (i = 0; i < most[1]; i++) for (j = 0; j < most[2]; j++) for (k = 0; k < most[3]; k++) for (l = 0; l < most[4]; l++) {
            w = at[n, 0] + i * at[n, 1] + j * at[n, 2] + k * at[n, 3] + l
            if (w >= size) wrong(name_of[n] " has the word " w ", past the room")
            if (w in owner) wrong(name_of[n] " and " owner[w] " have the word " w)
            owner[w] = name_of[n]; filled++
        }
    }
    same("words of no kind", size - filled, 0)

    # c/test.c: its enums
    text = whole[test]
    while (match(text, /\nenum \{[^}]*\}/)) {
        count = split(substr(text, RSTART + 7, RLENGTH - 8), item, ",")
        text = substr(text, RSTART + RLENGTH)
        v = -1
        for (i = 1; i <= count; i++) {
            gsub(/[ \n]/, "", item[i])
            if (item[i] == "") continue
            k = index(item[i], "=")
            if (k > 0 && item[i] ~ /=CRANKTIMBER_WORDS$/) v = c_words == "" ? size : c_words
            else v = k > 0 ? value("c", substr(item[i], k + 1)) : v + 1
            number["c", k > 0 ? substr(item[i], 1, k - 1) : item[i]] = v
        }
    }
    for (n = 0; n < kinds; n++) same(test " W_" code_of[n], value("c", "W_" code_of[n]), at[n, 0] - value("book", block_at[block_of[n]]))
    for (i = 1; i <= words; i++) if (word_c[i] != "-") same(test " " word_c[i], value("c", word_c[i]), value("book", word_is[i]))
    if (match(whole[test], /w\[[0-9]/)) wrong(test " has a number for a word: " substr(whole[test], RSTART, 12))
}

# the kinds: their numbers, and how many indices they have
function numbers(   i, n, used, count, lines, item, text) {
    same(layout " kinds", value("book", after(layout, "\nkinds =", "\n")), kinds)
    text = after(code, "pub enum Cell {", "}")
    gsub(/\/\/[^\n]*/, "", text)
    same(code " Cell, kinds", gsub(/,\n/, "\n", text), kinds)
    count = split(text, item, "\n")
    n = 0
    for (i = 1; i <= count; i++) {
        gsub(/^ +/, "", item[i])
        if (item[i] == "") continue
        types_of[n] = item[i]; sub(/^[A-Za-z]+\(?/, "", types_of[n]); sub(/\)$/, "", types_of[n])
        sub(/\(.*/, "", item[i])
        same(code " Cell " n, item[i], name_of[n])
        n++
    }
    for (n = 0; n < kinds; n++) {
        used = 4
        while (used > 0 && text_of[n, 3 + used] == "1") used--
        count = split(after(cells, "\nabbrev pub " name_of[n] " :", "\n\n"), lines, "\n")
        sub(/.*= cell /, "", lines[count])
        split(lines[count], item, " ")
        same(cells " " name_of[n], item[1] + 0, n)
        for (i = 1; i <= 4; i++) same(cells " " name_of[n] ", index " i, item[i + 1] ~ /^0$/, i > used)
    }
    if (gsub(/= cell [0-9]/, "&", whole[cells]) != kinds) wrong(cells " has kinds that the table has not")

    # the stretch has its words by name
    text = whole[part]
    gsub(/\/\/[^\n]*/, "", text); gsub(/(ghost use|requires|ensures)[^\n]*/, "", text); gsub(/[A-Za-z_][A-Za-z_0-9]*|x\.0/, "", text)
    if (match(text, /[2-9]|[0-9][0-9]/)) wrong(part " has a number: " substr(text, RSTART, RLENGTH))
}

function page_table(   i, j, k, n, b, v, text, item, piece, column, count, many) {
    text = after(page, "`&mut [u64]` of ", "bytes,")
    split(text, item, " words = ")
    same(page ", words", value("page", item[1]), size)
    same(page ", bytes", value("page", item[2]), 8 * size)
    n = 0
    for (i = 1; i <= blocks; i++) {
        b = block[i]
        text = after(page, "\n| " b, "|\n")
        split(text, column, "|")
        many = 1
        for (j = 1; j <= depth[b]; j++) { many *= at[n, 3 + j]; number["page", indices[b, j]] = 0 }
        same(page ", how many: " b, value("page", column[2]), many)
        same(page ", first word: " b, value("page", column[3]), value("book", block_at[b]))
        same("the table, first word: " b, at[n, 0], value("book", block_at[b]))
        for (j = 1; j <= depth[b]; j++) {
            number["page", indices[b, j]] = 1
            same(page ", by " indices[b, j] ": " b, value("page", column[3]) - at[n, 0], at[n, j])
            number["page", indices[b, j]] = 0
        }
        same(page ", words each: " b, value("page", column[4]), value("book", block_words[b]))
        text = column[5]
        gsub(/, by [a-z ]*/, "", text)
        count = split(text, item, /[,;]/)
        for (j = 1; j <= count; j++) {
            split(item[j], piece, " ")
            same(page ", a cell of " b, piece[1], name_of[n])
            same("the table, block of " name_of[n], block_of[n], b)
            many = 1
            for (k = depth[b] + 1; k <= 4; k++) many *= at[n, 3 + k]
            v = match(item[j], /\([0-9]+/) ? substr(item[j], RSTART + 1, RLENGTH - 1) + 0 : 1
            same(page ", how many: " name_of[n], v, many)
            n++
        }
    }
    same(page ", kinds", n, kinds)
}

# ---- The files ----
BEGIN { kinds = 0; offsets = split("HYBRID_AT ENTRIES_AT HELD_AT", offset, " ") }
FILENAME != table { whole[FILENAME] = whole[FILENAME] $0 "\n"; next }
/^#/ || NF == 0 { next }
$1 == "size" { sizes++; size_book[sizes] = $2; size_code[sizes] = $3; size_c[sizes] = $4; next }
$1 == "word" { words++; word_book[words] = $2; word_code[words] = $3; word_c[words] = $4; word_is[words] = $5; next }
$1 == "block" {
    blocks++; block[blocks] = $2; block_at[$2] = $3; block_words[$2] = $4
    for (i = 5; i <= NF; i++) indices[$2, ++depth[$2]] = $i
    next
}
$1 == "kind" && NF == 14 {
    if ($2 != kinds) wrong("the table has kind " $2 " at the place of kind " kinds)
    name_of[kinds] = $3; code_of[kinds] = $4; block_of[kinds] = $5
    for (i = 6; i <= 14; i++) text_of[kinds, i - 6] = $i
    kinds++
    next
}
{ wrong("a line of the table is not understood: " $0) }

END {
    if (bad) exit 1
    layout = "crates/room/specs/Layout.antt"; cells = "crates/book/specs/Cells.antt"; code = "crates/room/src/lib.rt"
    part = "crates/room/src/stretch.rt"; page = "docs/ROOM.md"; test = "c/test.c"
    read_sizes()
    numbers()
    names(value("c", after("c/cranktimber.h", "enum { CRANKTIMBER_WORDS =", "}")))
    page_table()
    true_size = size
    # with sizes that are all different, so that a name in the place of another is seen where both have one number
    if (split("2 3 5 7 11 13 17 19", other, " ") < sizes) wrong("more sizes than are foreseen here")
    for (i = 1; i <= sizes; i++) take_size(i, other[i])
    names("")
    print "room: " kinds " kinds, " true_size " words, one table"
}' table=crates/room/layout.txt crates/room/layout.txt crates/book/specs/Sizes.antt crates/book/src/lib.rt second/store.h \
    crates/book/specs/Cells.antt crates/room/specs/Layout.antt crates/room/src/lib.rt crates/room/src/stretch.rt docs/ROOM.md \
    c/cranktimber.h c/test.c
