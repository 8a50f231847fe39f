# Follows a card by its answers. Read before a script that uses it:
#
#   awk -f tools/card.awk -f SCRIPT [first=bad] part=card CARD part=answers ANSWERS
#
# CARD is the card as text that awk can read (run: readable); first=bad says that nothing on it was
# run. SCRIPT sees each answer after the state below took it in; `line` is the answer's line on the
# card. No number here is rounded: all are whole, and far below 2^53.
#
#   text[LINE]                    the card's lines; `lines` counts them
#   kind, size, count, name[s]    the first line; a value has `size` coordinates
#   bound, bound_on[i]            how many relations are bound, and the line that bound relation i
#   factor[i, s], constant[i, k]  its coefficients and the coordinates of its constant
#   phase                         "free", "gripped", or "proposed" with a proposal that stands
#   grip_line, role[s], spares    the last accepted grip: its line, cells and spare numbers
#   over, kept[s, k], kept_line   the kept values over their denominator, and the keep's line or 0
#   pull_line                     the last accepted pull's line, or 0
#   pulled_over, proposed[s, k]   its denominator and numerators
#   fate[LINE]                    what became of the proposal of the pull on that line
#   lost_grip, lost_pull          the last refused grip since the sheet was free, and the last pull
#                                 refused by its number since the last accepted one, or 0
#   no[LINE], unread              the number that a refused line got, and the last line that got 16
#   ended_by, ended_on            the keep or drop that ended the last grip, and its line, or 0

part == "card" {
    text[FNR] = $0
    lines = FNR
    if (FNR == 1 && first != "bad")
        opening()
    next
}
part == "answers" {
    line = FNR + 1
    if (lines == 0)
        text[1] = ""
    if ($1 == "no") {
        no[line] = $2
        refused(text[line])
    } else if ($1 == "ok")
        accepted(text[line], $0)
}

function opening(    s) {
    count = NF - 1
    kind = $1
    size = kind == "point" ? 2 : 1
    for (s = 1; s <= count; s++)
        name[s] = $(s + 1)
    over = 1
    phase = "free"
    kept_line = pull_line = lost_grip = lost_pull = ended_on = bound = 0
}

function refused(said,    word) {
    split(said, word, " ")
    if (no[line] == 16)
        unread = line
    if (no[line] == 16 || no[line] == 19)
        return
    if (word[1] == "grip")
        lost_grip = line
    if (word[1] == "pull") {
        if (phase == "proposed")
            fate[pull_line] = "taken away by the refused pull on line " line
        phase = "gripped"
        lost_pull = line
    }
}

function accepted(said, answer,    word, got) {
    split(said, word, " ")
    split(answer, got, " ")
    if (word[1] == "bind")
        bind(word)
    else if (word[1] == "unbind")
        unbind(word[2] + 0)
    else if (word[1] == "grip")
        grip(word, answer)
    else if (word[1] == "pull")
        pull(got)
    else
        end_grip(word[1])
}

function bind(word,    s) {
    for (s = 1; s <= count; s++)
        factor[bound, s] = word[s + 1] + 0
    coordinates(word[count + 2], constant, bound)
    bound_on[bound] = line
    bound++
}

function unbind(number,    i, s, k) {
    bound--
    for (i = number; i < bound; i++) {
        for (s = 1; s <= count; s++)
            factor[i, s] = factor[i + 1, s]
        for (k = 1; k <= size; k++)
            constant[i, k] = constant[i + 1, k]
        bound_on[i] = bound_on[i + 1]
    }
}

function grip(word, answer,    s) {
    for (s = 1; s <= count; s++)
        role[s] = word[s + 1]
    spares = substr(answer, 4)
    grip_line = line
    phase = "gripped"
    lost_grip = lost_pull = 0
}

function pull(got,    s) {
    if (phase == "proposed")
        fate[pull_line] = "replaced by the pull on line " line
    pulled_over = got[2] + 0
    for (s = 1; s <= count; s++)
        coordinates(got[s + 2], proposed, s)
    pull_line = line
    lost_pull = 0
    phase = "proposed"
}

function end_grip(verb,    s, k) {
    if (verb == "keep") {
        over = pulled_over
        for (s = 1; s <= count; s++)
            for (k = 1; k <= size; k++)
                kept[s, k] = proposed[s, k]
        kept_line = line
        fate[pull_line] = "kept by line " line
    } else if (phase == "proposed")
        fate[pull_line] = "dropped by line " line
    ended_by = verb
    ended_on = line
    phase = "free"
    lost_grip = lost_pull = 0
}

# Puts the coordinates of a value's word into a list, at the place i.
function coordinates(word, list, i,    part, k) {
    split(word, part, ",")
    for (k = 1; k <= size; k++)
        list[i, k] = part[k] + 0
}

# The greatest common divisor, at least 1.
function divisor(a, b,    rest) {
    a = a < 0 ? -a : a + 0
    b = b < 0 ? -b : b + 0
    while (b > 0) {
        rest = a % b
        a = b
        b = rest
    }
    return a == 0 ? 1 : a
}

# A whole number, in full.
function whole(n) {
    return n == 0 ? "0" : sprintf("%.0f", n)
}

# n over d in lowest terms.
function fraction(n, d,    g) {
    g = divisor(n, d)
    return whole(n / g) (d == g ? "" : "/" whole(d / g))
}

# n over d steps in millimetres, rounded to a thousandth; 40 steps are 1 mm.
function millimetres(n, d,    twice, t) {
    twice = (n < 0 ? -n : n) * 50 + d
    t = (twice - twice % (2 * d)) / (2 * d)
    return (n < 0 && t > 0 ? "-" : "") sprintf("%d.%03d", int(t / 1000), t % 1000)
}

# A text with its odd bytes made visible, cut where it has more than about `most` characters.
function visible(said, most,    i, c, shown) {
    if (said !~ /[^ -~]/ && length(said) <= most)
        return said
    for (i = 1; i <= length(said); i++) {
        if (length(shown) > most - 4)
            return shown "[..]"
        c = substr(said, i, 1)
        shown = shown (c ~ /[ -~]/ ? c : odd(c))
    }
    return shown
}

# How a byte is shown that is no printing ASCII character. A byte 0 has become a 1.
function odd(c,    b) {
    if (!("\t" in byte))
        for (b = 1; b < 256; b++)
            byte[sprintf("%c", b)] = b
    b = byte[c]
    if (b == 1)
        return "^@"
    return b < 128 ? plain(b) : "M-" plain(b - 128)
}

function plain(b) {
    if (b == 127)
        return "^?"
    return b < 32 ? "^" sprintf("%c", b + 64) : sprintf("%c", b)
}
