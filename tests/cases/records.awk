# Turns questions.txt into the records that the program `cases` reads, as octal escapes, a record to a line; see `records`.

BEGIN {
    FS = " *[|] *"
    split("minutes ordinates slopes curvatures ends head left right minute log bytes length room changes places values parts count place", names, " ")
    for (i in names) known[names[i]] = 1
    for (i = 1; i < 256; i++) character[sprintf("%c", i)] = i
    printed = 0; mean = 1; reading = 2; check = 3; swing = 4; fit = 5; fit_codes = 6; write = 7; read = 8; mend = 9
    fit_slopes = 10; write_slopes = 11; explain = 12; preheat = 13; unknown = 14
}

function fail(words) {
    printf "%s:%d: %s\n", FILENAME, FNR, words | "cat >&2"
    failed = 1
    exit
}

# ---- numbers as bytes

# A whole number in so many bytes; a negative one by its complement.
function little(number, size,    rest, byte, text) {
    rest = number < 0 ? -number - 1 : number + 0
    text = ""
    for (; size > 0; size--) {
        byte = rest % 256
        rest = (rest - byte) / 256
        text = text sprintf("\\%03o", number < 0 ? 255 - byte : byte)
    }
    if (rest != 0) fail(number " does not fit")
    return text
}

# How many times 2^31, and the rest.
function halves(number,    rest) {
    rest = (number % 2147483648 + 2147483648) % 2147483648
    return little((number - rest) / 2147483648, 4) little(rest, 4)
}

# A numerator and a divisor.
function quotient(word,    at) {
    at = index(word, "/")
    if (at == 0) return halves(word) halves(1)
    return halves(substr(word, 1, at - 1)) halves(substr(word, at + 1))
}

function hexadecimal(word) {
    if (word !~ /^[0-9a-f][0-9a-f]$/) fail(word " is no byte in hexadecimal")
    return 16 * (index("0123456789abcdef", substr(word, 1, 1)) - 1) + index("0123456789abcdef", substr(word, 2, 1)) - 1
}

function text_bytes(text,    i, bytes) {
    bytes = ""
    for (i = 1; i <= length(text); i++) bytes = bytes little(character[substr(text, i, 1)], 1)
    return bytes
}

function sevens(many, size,    text) {
    for (text = ""; many > 0; many--) text = text little(7, size)
    return text
}

# ---- a line's fields

function add(name, word) {
    value[name, ++count[name]] = word
}

function add_words(name, word,    at, from, to) {
    if (name == "bytes")
        add(name, hexadecimal(word))
    else if (word ~ /^-?[0-9]+[*][0-9]+$/) {
        at = index(word, "*")
        for (to = substr(word, at + 1); to > 0; to--) add(name, substr(word, 1, at - 1))
    } else if (word ~ /^[0-9]+[.][.][0-9]+$/) {
        at = index(word, "..")
        to = substr(word, at + 2) + 0
        for (from = substr(word, 1, at - 1) + 0; from <= to; from++) add(name, from)
    } else if (word ~ /^-?[0-9]+$/ || ((name == "left" || name == "right") && word ~ /^-?[0-9]+\/-?[0-9]+$/))
        add(name, word)
    else
        fail(word " is no number")
}

function take(field,    words, n, i) {
    n = split(field, words, " ")
    if (!(words[1] in known)) fail("there is no field " words[1])
    given[words[1]] = 1
    count[words[1]] = 0
    for (i = 2; i <= n; i++) add_words(words[1], words[i])
}

# The fields of the line, with those that it takes from a line above written out.
function fields(    i, text, other) {
    text = ""
    for (i = 3; i <= NF; i++)
        if ($i ~ /^like /) {
            other = substr($i, 6)
            if (!(other in above)) fail("no line above has the label " other)
            text = text above[other]
        } else
            text = text $i "|"
    return text
}

function must_have(name, many) {
    if (count[name] != many) fail(name " has not " many " numbers")
}

function number(name, otherwise) {
    if (!given[name]) return otherwise
    must_have(name, 1)
    return value[name, 1]
}

function pair(name) {
    if (given[name]) must_have(name, 2)
    else value[name, 1] = value[name, 2] = 0
}

function zeros(name,    i) {
    if (given[name]) must_have(name, count["minutes"])
    else for (i = 1; i <= count["minutes"]; i++) value[name, i] = 0
}

function settle(    name, i, parts, n) {
    for (name in known) given[name] = count[name] = 0
    n = split(above[$2], parts, "|")
    for (i = 1; i < n; i++) take(parts[i])
    zeros("ordinates"); zeros("slopes"); zeros("curvatures")
    pair("ends"); pair("left"); pair("right")
    if (given["places"]) must_have("places", 4)
    else for (i = 1; i <= 4; i++) value["places", i] = count["minutes"]
    for (i = 1; i <= 4; i++) if (value["places", i] > 66) fail("the program lends at most 66 places")
    if (count["values"] > 66) fail("the program lends at most 66 places")
}

# ---- what is lent

# So many places of a list: what the knots have, and 7s behind.
function lent(name, many, size,    i, text) {
    text = ""
    for (i = 1; i <= many; i++) text = text little(i <= count["minutes"] ? value[name, i] : 7, size)
    return text
}

function all_of(name, size,    i, text) {
    text = ""
    for (i = 1; i <= count[name]; i++) text = text little(value[name, i], size)
    return text
}

# The card's bytes, whatever they hold.
function card(    text, i, n) {
    n = count["minutes"]
    if (given["bytes"]) text = all_of("bytes", 1)
    else {
        text = little(6, 2) little(number("head", 1), 2) little(n, 2) little(value["ends", 1], 2) little(value["ends", 2], 2)
        for (i = 1; i <= n; i++)
            text = text little(12, 2) little(2, 2) little(value["minutes", i], 2) little(value["ordinates", i], 2) little(value["slopes", i], 4) little(value["curvatures", i], 4)
        text = text little(0, 2) little(3, 2)
    }
    i = number("length", length(text) / 4)
    while (length(text) < 4 * i) text = text little(0, 1)
    return substr(text, 1, 4 * i)
}

# ---- records

function record(kind, x, y, m, c, left, right, rest,    body) {
    body = little(x, 2) little(y, 2) little(m, 2) little(c, 2) little(left, 2) little(right, 2) rest
    if (length(body) > 4 * 4096) fail("the program reads at most 4096 bytes of a question")
    print little(length(body) / 4, 2) little(kind, 2) body
}

function bytes_record(kind, minute, bytes) {
    record(kind, 0, 0, 0, 0, minute, 0, bytes)
}

function lists_record(kind, left, right, rest) {
    record(kind, value["places", 1], value["places", 2], value["places", 3], value["places", 4], left, right, rest)
}

function values_record(kind, left, right) {
    record(kind, 0, count["values"], 0, 0, left, right, all_of("values", 2))
}

function ended_record(kind, rest) {
    lists_record(kind, value["ends", 1], value["ends", 2], rest)
}

function ask(word,    x, y, m, c) {
    x = value["places", 1]; y = value["places", 2]; m = value["places", 3]; c = value["places", 4]
    if (word == "mean") bytes_record(mean, number("minute", 0), all_of("log", 1))
    else if (word == "reading") bytes_record(reading, number("minute", 0), card())
    else if (word == "check") bytes_record(check, 0, card())
    else if (word == "explain") bytes_record(explain, number("minute", 0), card())
    else if (word == "swing") bytes_record(swing, 0, card())
    else if (word == "preheat") values_record(preheat, number("parts", 0), number("count", 0))
    else if (word == "unknown") values_record(unknown, number("place", 0), 0)
    else if (word == "fit" && !given["ends"]) ended_record(fit, lent("minutes", x, 2) lent("ordinates", y, 2) sevens(m, 4) sevens(c, 4))
    else if (word == "fit")
        ended_record(fit_codes, lent("minutes", x, 2) lent("ordinates", y, 2) sevens(m, 4) sevens(c, 4) quotient(value["left", 1]) quotient(value["left", 2]) quotient(value["right", 1]) quotient(value["right", 2]))
    else if (word == "write")
        ended_record(write, lent("minutes", x, 2) lent("ordinates", y, 2) lent("slopes", m, 4) lent("curvatures", c, 4) sevens(number("room", 14 + 16 * count["minutes"]), 1))
    else if (word == "fit_slopes")
        lists_record(fit_slopes, 0, 0, lent("minutes", x, 2) lent("ordinates", y, 2) lent("slopes", m, 4) sevens(c, 4))
    else if (word == "write_slopes")
        lists_record(write_slopes, 0, 0, lent("minutes", x, 2) lent("ordinates", y, 2) lent("slopes", m, 4) lent("curvatures", c, 4) sevens(number("room", 14 + 16 * count["minutes"]), 1))
    else if (word == "read") ended_record(read, sevens(x, 2) sevens(y, 2) sevens(m, 4) sevens(c, 4) card())
    else if (word == "mend")
        lists_record(mend, number("changes", count["minutes"]), 0, lent("minutes", x, 2) lent("ordinates", y, 2) sevens(m, 4) sevens(c, 4))
    else fail("nothing is asked by " word)
}

/^#/ || /^ *$/ { next }

$1 == "heading" {
    bytes_record(printed, 0, text_bytes($2 "\n"))
    next
}

{
    if ($2 in above) fail("another line has the label " $2)
    above[$2] = fields()
    settle()
    n = split($1, asked, " ")
    for (i = 1; i <= n; i++) {
        bytes_record(printed, 0, text_bytes($2 ": "))
        ask(asked[i])
        bytes_record(printed, 0, text_bytes("\n"))
    }
}

END {
    if (failed) exit 1
}
