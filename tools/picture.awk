# Draws the sheet as it is kept at the end of a card, as an SVG: points in a plane
# (tools/plane.awk), lengths on a ruler (tools/ruler.awk), both in millimetres. Where the last
# accepted pull was not kept, its proposal stands beside. Read after tools/card.awk. The
# environment has the card's name in CARD.

END {
    letter = 7.3 # how wide a letter of the names is, and how high a line of them
    leading = 15
    names = " font-family=\"DejaVu Sans Mono, Menlo, Consolas, monospace\"" \
        " paint-order=\"stroke\" stroke=\"#fff\" stroke-width=\"3\""
    small = " font-size=\"11\""
    kept_colour = "#1f4e79"
    new_colour = "#b8480a"
    with_new = pull_line > 0 && fate[pull_line] !~ /^kept/
    if (size > 1)
        plane()
    else
        ruler()
    frame()
}

# Prints the drawing, which is `wide` by `high`, under the card's name and over what it shows.
function frame(    named, said, n, i, down) {
    named = ENVIRON["CARD"]
    gsub(/[^ -~]/, "?", named)
    gsub(/&/, "\\&amp;", named)
    gsub(/</, "\\&lt;", named)
    gsub(/>/, "\\&gt;", named)
    said[++n] = size > 1 ? "In millimetres, x to the right and y up, both to one scale." : \
        "In millimetres, to the right of 0; what is below 0 is to the left."
    said[++n] = (size > 1 ? "Dots" : "Above the ruler") ": " \
        (kept_line ? "kept by line " kept_line : "a new sheet, nothing was kept") "."
    if (with_new)
        said[++n] = (size > 1 ? "Rings" : "Below the ruler") ": proposed by line " pull_line ", " \
            (fate[pull_line] == "" ? "not kept when the card ends" : fate[pull_line]) "."
    said[++n] = "Drawn from the card and its answers, outside the proof."
    wide = larger(wide, 560)
    down = high + 56 + 18 * n
    print "<svg xmlns=\"http://www.w3.org/2000/svg\" width=\"" px(wide) "\" height=\"" px(down) \
        "\" viewBox=\"0 0 " px(wide) " " px(down) "\""
    print "  font-family=\"DejaVu Sans, Verdana, sans-serif\" font-size=\"12\" fill=\"#222\">"
    print "<!-- " said[n] " -->"
    print "<title>" named "</title>"
    print "<rect width=\"100%\" height=\"100%\" fill=\"#fff\"/>"
    print "<text x=\"20\" y=\"28\" font-size=\"16\" font-weight=\"bold\">" named "</text>"
    printf "<g transform=\"translate(0 44)\">\n%s</g>\n", drawing
    for (i = 1; i <= n; i++)
        print "<text x=\"20\" y=\"" px(high + 48 + 18 * i) "\">" said[i] "</text>"
    print "</svg>"
}

function add(element) {
    drawing = drawing element "\n"
}

function draw_line(x, y, u, v, style) {
    add("<line x1=\"" px(x) "\" y1=\"" px(y) "\" x2=\"" px(u) "\" y2=\"" px(v) "\" " style "/>")
}

function draw_circle(x, y, r, style) {
    add("<circle cx=\"" px(x) "\" cy=\"" px(y) "\" r=\"" r "\" " style "/>")
}

# Writes at a point, from the anchor "start", "middle" or "end".
function write_at(x, y, anchor, style, said) {
    add("<text x=\"" px(x) "\" y=\"" px(y) "\" text-anchor=\"" anchor "\"" style ">" said "</text>")
}

function larger(a, b) {
    return a > b ? a : b
}

# A place in the drawing, to a tenth.
function px(v) {
    v = sprintf("%.1f", v)
    sub(/[.]0$/, "", v)
    return v == "-0" ? "0" : v
}

# The least of .., 0.1, 0.2, 0.5, 1, 2, 5, .. that is not below v, and at least 0.001: what lies
# between two ticks. They are written with `decimals` decimals.
function round_step(v,    step, i) {
    step = 0.001
    for (i = 0; step < v; i++)
        step *= i % 3 == 1 ? 2.5 : 2
    decimals = i < 9 ? 3 - int(i / 3) : 0
    return step
}

function tick(v) {
    v = sprintf("%." decimals "f", v)
    return v ~ /^-[0.]*$/ ? substr(v, 2) : v
}

# Puts the parameters with one and the same value together: place[i, 1 to places_of[i]] are their
# numbers.
function gather(at,    s, i, k, same) {
    places = 0
    for (s = 1; s <= count; s++) {
        for (i = 1; i <= places; i++) {
            same = 1
            for (k = 1; k <= size; k++)
                same = same && at[s, k] + 0 == at[place[i, 1], k] + 0
            if (same)
                break
        }
        if (i > places)
            places_of[++places] = 0
        place[i, ++places_of[i]] = s
    }
}

# Writes the names at place i, and a text after them, into label[i, 1 to tall[i]]; broad[i] is the
# width of the longest line.
function label_place(i, after,    n, w) {
    tall[i] = 1
    label[i, 1] = ""
    broad[i] = 0
    for (n = 1; n <= places_of[i]; n++) {
        w = name[place[i, n]] (n < places_of[i] ? "," : after)
        if (length(label[i, tall[i]]) + length(w) > 44 && n > 1)
            label[i, ++tall[i]] = ""
        label[i, tall[i]] = label[i, tall[i]] (label[i, tall[i]] == "" ? "" : " ") w
        broad[i] = larger(broad[i], letter * length(label[i, tall[i]]))
    }
}
