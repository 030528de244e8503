# Draws a card as SVG. Reads what `workbench points` prints: a line for each knot (minute ordinate slope
# curvature), a line 'ok N', then a line for each minute (minute value slope curvature). CARD names it. The
# curve is red where `kaihveto check` warns: where it goes more than SWING hundredths beyond both knots of its
# gap, whose band between the two ordinates is shown then, and where it leaves 0 to 100 %.

# A picture is XML in UTF-8: what is neither a letter of it nor printable is shown as '?'. Bytes are told apart in the C locale alone, in which this is run.
function printable(s,    shown) {
    while (s != "") {
        if (!match(s, /^([ -~]|[\302-\337][\200-\277]|\340[\240-\277][\200-\277]|[\341-\354\356][\200-\277][\200-\277]|\355[\200-\237][\200-\277]|\357[\200-\276][\200-\277]|\360[\220-\277][\200-\277][\200-\277]|[\361-\363][\200-\277][\200-\277][\200-\277]|\364[\200-\217][\200-\277][\200-\277])/)) {
            shown = shown "?"
            RLENGTH = 1
        } else shown = shown substr(s, 1, RLENGTH)
        s = substr(s, RLENGTH + 1)
    }
    return shown
}

function escaped(s) {
    s = printable(s)
    gsub(/&/, "\\&amp;", s)
    gsub(/</, "\\&lt;", s)
    gsub(/>/, "\\&gt;", s)
    return s
}

# 1, 2 or 5 times a power of ten, or a part of an hour, so that a span has at most `most` steps
function step_of(span, most, hours,    size, i, n, choice) {
    if (hours) {
        n = split("1 2 5 10 15 30 60 120 180 240 360 720 1440 2880 5760 11520", choice, " ")
        for (i = 1; i <= n; i++) if (span / choice[i] <= most) return choice[i]
    }
    size = 1
    while (1) {
        if (span / size <= most) return size
        if (span / (2 * size) <= most) return 2 * size
        if (span / (5 * size) <= most) return 5 * size
        size *= 10
    }
}

function across(minute) { return left + (minute - first) * wide / (last - first) }
function down(value) { return top + (highest - value) * high / (highest - lowest) }

function text(x, y, anchor, words) {
    printf "<text x=\"%.1f\" y=\"%.1f\" text-anchor=\"%s\">%s</text>\n", x, y, anchor, words
}

function percent(hundredths,    s) {
    s = sprintf("%.2f", hundredths / 100)
    sub(/\.?0+$/, "", s)
    return (s == "" || s == "-" ? "0" : s) " %"
}

!listed && $1 == "ok" { listed = 1; next }
!listed { knots++; x[knots] = $1 + 0; y[knots] = $2 + 0; next }
{ points++; minute[points] = $1 + 0; value[points] = $2 + 0 }

END {
    first = x[1]
    last = x[knots]
    lowest = highest = value[1]
    for (i = 1; i <= points; i++) {
        if (value[i] < lowest) lowest = value[i]
        if (value[i] > highest) highest = value[i]
    }
    if (highest - lowest < 100) { highest += 50; lowest -= 50 }
    tick = step_of(highest - lowest, 8, 0)
    lowest = tick * (lowest < 0 ? -int((-lowest + tick - 1) / tick) : int(lowest / tick))
    highest = tick * (highest > 0 ? int((highest + tick - 1) / tick) : -int(-highest / tick))
    left = 70; top = 40; wide = 860; high = 380

    print "<svg xmlns=\"http://www.w3.org/2000/svg\" width=\"960\" height=\"480\" viewBox=\"0 0 960 480\" font-family=\"sans-serif\" font-size=\"12\">"
    print "<title>" escaped(ENVIRON["CARD"]) "</title>"
    print "<rect width=\"960\" height=\"480\" fill=\"white\"/>"
    text(left, 24, "start", escaped(ENVIRON["CARD"]) ": " knots " knots, minute " first " to " last)

    print "<g stroke=\"#ddd\">"
    for (v = lowest; v <= highest; v += tick) printf "<line x1=\"%.1f\" y1=\"%.1f\" x2=\"%.1f\" y2=\"%.1f\"%s/>\n", left, down(v), left + wide, down(v), (v == 0 || v == 10000 ? " stroke=\"#888\"" : "")
    each = step_of(last - first, 16, 1)
    start = each * int((first + each - 1) / each)
    for (m = start; m <= last; m += each) printf "<line x1=\"%.1f\" y1=\"%.1f\" x2=\"%.1f\" y2=\"%.1f\"/>\n", across(m), top, across(m), top + high
    print "</g>"
    for (v = lowest; v <= highest; v += tick) text(left - 8, down(v) + 4, "end", percent(v))
    for (m = start; m <= last; m += each) text(across(m), top + high + 18, "middle", m)
    text(left + wide / 2, top + high + 40, "middle", "minutes")

    # where it is warned of, and in which gaps that is a swing
    swing = ENVIRON["SWING"] + 0
    gap = 1
    for (i = 1; i <= points; i++) {
        while (gap < knots - 1 && minute[i] > x[gap + 1]) gap++
        below = y[gap] < y[gap + 1] ? y[gap] : y[gap + 1]
        above = y[gap] < y[gap + 1] ? y[gap + 1] : y[gap]
        if (below - value[i] > swing || value[i] - above > swing) outside[i] = leaves[gap] = 1
        if (value[i] < 0 || value[i] > 10000) outside[i] = 1
    }
    for (gap = 1; gap < knots; gap++) if (leaves[gap]) {
        above = y[gap] < y[gap + 1] ? y[gap + 1] : y[gap]
        below = y[gap] < y[gap + 1] ? y[gap] : y[gap + 1]
        printf "<rect class=\"band\" x=\"%.1f\" y=\"%.1f\" width=\"%.1f\" height=\"%.1f\" fill=\"#fd8\" fill-opacity=\"0.5\"/>\n", across(x[gap]), down(above), across(x[gap + 1]) - across(x[gap]), down(below) - down(above) + 1
    }

    printf "<polyline class=\"curve\" fill=\"none\" stroke=\"#036\" stroke-width=\"1.5\" points=\""
    for (i = 1; i <= points; i++) printf "%s%.1f,%.1f", (i == 1 ? "" : " "), across(minute[i]), down(value[i])
    print "\"/>"
    for (i = 1; i <= points; i++) if (outside[i]) {
        before = i > 1 ? i - 1 : i
        printf "<polyline class=\"outside\" fill=\"none\" stroke=\"#c00\" stroke-width=\"2\" points=\"%.1f,%.1f", across(minute[before]), down(value[before])
        while (i <= points && outside[i]) { printf " %.1f,%.1f", across(minute[i]), down(value[i]); i++ }
        if (i <= points) printf " %.1f,%.1f", across(minute[i]), down(value[i])
        print "\"/>"
    }
    for (i = 1; i <= knots; i++) printf "<circle class=\"knot\" cx=\"%.1f\" cy=\"%.1f\" r=\"3.5\" fill=\"#036\"><title>knot %d: minute %d, %s</title></circle>\n", across(x[i]), down(y[i]), i - 1, x[i], percent(y[i])
    print "</svg>"
}
