# Says why a line is not of the form that a card's lines have (docs/card.md). Read after
# tools/card.awk. unended=yes says that the card's last line lacks its end, bytes=N how many bytes
# the card has.

# Why line n gets 16: up to three sentences, or nothing where no fault is found.
function why_form(n,    t, word, words) {
    why = ""
    faults = 0
    if (n == 1 && bytes > 65536)
        fault("The card has more than 65,536 bytes.")
    if (n == 1 && lines == 0)
        fault("The card is empty.")
    t = bare(n)
    words = split(t, word, " ")
    if (n == 1)
        heading_faults(word, words)
    else if (words > 0)
        call_faults(word, words)
    if (faults > 3)
        why = why " And there are " (faults - 3) " more faults."
    return why
}

function fault(sentence) {
    if (++faults <= 3)
        why = why (why == "" ? "" : " ") sentence
}

function word_fault(number, w, of, what) {
    fault("Word " number ", `" visible(w, 24) "`" (of == "" ? "" : " (" of ")") ", " what ".")
}

# Notes what is wrong with line n as a line, and gives its words with one space between them.
function bare(n,    t, word, words, i) {
    t = text[n]
    if (length(t) >= 1024)
        fault("It has " (length(t) + 1) " bytes with its end, and a line has at most 1,024.")
    if (n == lines && unended == "yes")
        fault("It is the card's last line and lacks its end: end it like every other line.")
    if (n == 1 && sub(/^\357\273\277/, "", t))
        fault("It begins with a byte order mark: save the card as plain text without one.")
    if (sub(/\r$/, "", t))
        fault("It ends in a carriage return, shown as ^M: save the card with line feeds alone.")
    if (t == "" && lines > 0)
        fault("It is empty, and no line of a card is.")
    if (t ~ /\t/)
        fault("It has a tab, shown as ^I: put one space between two words.")
    gsub(/\t/, " ", t)
    if (t ~ /^ /)
        fault("A space stands before its first word.")
    if (t ~ / $/)
        fault("A space stands after its last word.")
    words = split(t, word, " ")
    t = text[n]
    gsub(/^[ \t]+|[ \t\r]+$/, "", t)
    for (i = 1; i < words; i++) {
        t = substr(t, length(word[i]) + 1)
        if (t ~ /^  /)
            fault("Two spaces stand after word " i ", `" visible(word[i], 24) "`.")
        sub(/^[ \t]+/, "", t)
    }
    t = ""
    for (i = 1; i <= words; i++)
        t = t (i > 1 ? " " : "") cleared(i, word[i])
    return t
}

# A word without dashes that are meant as a minus, and with its other odd bytes noted.
function cleared(i, w,    plain_word) {
    if (w !~ /[^ -~]/)
        return w
    plain_word = w
    gsub(/\342\210\222|\342\200\223|\342\200\224/, "-", plain_word)
    if (plain_word !~ /[^ -~]/) {
        word_fault(i, w, "", "has a dash for its minus: write " plain_word)
        return plain_word
    }
    word_fault(i, w, "", "has a byte that no card may have")
    return w
}

# What is wrong with the first line.
function heading_faults(word, words,    i, seen) {
    if (words == 0)
        return
    if (word[1] != "length" && word[1] != "point")
        word_fault(1, word[1], "", "is neither length nor point, in small letters")
    if (words == 1)
        fault("It names no parameter.")
    if (words > 49)
        fault("It has " (words - 1) " names, and a sheet has at most 48.")
    for (i = 2; i <= words; i++) {
        name_fault(i, word[i])
        if (word[i] in seen)
            word_fault(i, word[i], "", "stands twice: each name needs its own")
        seen[word[i]]
    }
}

function name_fault(i, w) {
    if (w ~ /[^ -~]/)
        return
    if (w ~ /[A-Z]/)
        word_fault(i, w, "", "has a capital letter: names have small letters and digits")
    else if (w ~ /[^a-z0-9]/)
        word_fault(i, w, "", "has a sign in it: names have small letters and digits")
    else if (w !~ /^[a-z]/)
        word_fault(i, w, "", "begins with a digit: a name begins with a letter")
    if (length(w) > 8)
        word_fault(i, w, "", "has " length(w) " letters and digits: a name has at most 8")
}

# What is wrong with a line that should make a call.
function call_faults(word, words,    verb, got, want, i, split_point) {
    verb = word[1]
    if (verb !~ /^(bind|unbind|grip|pull|keep|drop)$/) {
        if (verb !~ /[^ -~]/)
            word_fault(1, verb, "", no_verb(verb))
        verb = tolower(verb)
    }
    got = words - 1
    want = values_of(verb)
    if (want < 0)
        return
    for (i = 2; i <= words; i++)
        if (half_point(verb, word[i])) {
            word_fault(i, word[i], "", "is half a point: no space stands in a point, as in 0,-1600")
            split_point = 1
        }
    if (got != want && !split_point)
        fault("`" verb "` takes " wanted(verb, want) ", and has " got " here.")
    for (i = 1; i <= got; i++)
        if (word[i + 1] !~ /[^ -~]/)
            value_fault(verb, i, got, want, word[i + 1])
}

# Whether a word is what a space makes of a point, its two halves one after the other.
function half_point(verb, w) {
    return size > 1 && verb ~ /^(bind|pull)$/ && w ~ /^,|,$/
}

function no_verb(verb,    small) {
    small = tolower(verb)
    if (values_of(small) >= 0)
        return "has a capital letter: write " small
    if (verb ~ /^(#|\/|;)/)
        return "begins no call: a card has no comments"
    if (small == "length" || small == "point")
        return "begins no call: only the card's first line names kind and parameters"
    return "is none of bind, unbind, grip, pull, keep and drop"
}

# How many values a call has; -1 for what is no call.
function values_of(verb) {
    if (verb == "bind")
        return count + 1
    if (verb == "grip" || verb == "pull")
        return count
    if (verb == "unbind")
        return 1
    return verb == "keep" || verb == "drop" ? 0 : -1
}

function wanted(verb, want) {
    if (want == 0)
        return "no value"
    if (verb == "unbind")
        return "1 value, the number of a relation"
    if (verb == "bind")
        return want " values, a coefficient for each of the " count " names and then the constant"
    return want " value" (want > 1 ? "s" : "") ", one for each name"
}

# What is wrong with value i of a call. A binding's last value is its constant.
function value_fault(verb, i, got, want, w,    what, of) {
    of = got != want ? "" : verb == "unbind" ? "" : i > count ? "the constant" : name[i]
    if (want == 0 || half_point(verb, w))
        return
    if (verb == "unbind")
        what = number_fault(w)
    else if (verb == "grip")
        what = cell_fault(w)
    else if (verb == "bind" && i < got)
        what = coefficient_fault(w)
    else
        what = size > 1 ? point_fault(w) : length_fault(w)
    if (what != "")
        word_fault(i + 1, w, of, what)
}

function number_fault(w,    rest) {
    rest = w
    sub(/^[-+]/, "", rest)
    if (rest ~ /^[0-9]+\/[0-9]+$/)
        return "is a fraction, and a number is whole"
    if (rest !~ /^[0-9]+$/)
        return "is not a number"
    if (length(rest) > 8)
        return "has " length(rest) " digits, and a number has at most 8"
    if (w ~ /^[+]/)
        return "has a plus: write " rest
    if (w == "-0")
        return "is 0 with a minus: write 0"
    if (rest ~ /^0./)
        return "has a leading 0: write " (w + 0)
    return ""
}

# What is wrong with a number of steps.
function steps_fault(w) {
    if (w ~ /^[-+]?([0-9]+[.]?[0-9]*|[.][0-9]+)mm$/)
        return "has a unit: " steps_for(w)
    if (w ~ /^[-+]?([0-9]+[.][0-9]*|[.][0-9]+)$/)
        return "has a decimal point: " steps_for(w)
    return number_fault(w)
}

# What to write for millimetres with a decimal point.
function steps_for(w,    minus, places, ten, n) {
    minus = w ~ /^-/ ? "-" : ""
    gsub(/[-+m]/, "", w)
    places = index(w, ".") ? length(w) - index(w, ".") : 0
    n = w
    sub(/[.]/, "", n)
    if (length(n) > 12)
        return "values are whole steps, 40 to the millimetre"
    n = n * 40
    for (ten = 1; places > 0; places--)
        ten *= 10
    if (n % ten == 0)
        return "write " minus whole(n / ten) " steps for " minus w " mm"
    n = (n - n % ten) / ten
    return minus w " mm lies between " minus whole(n) " and " minus whole(n + 1) " steps; write one"
}

function length_fault(w,    point) {
    if (w !~ /^-?[0-9]+,-?[0-9]+$/)
        return steps_fault(w)
    point = "is a point, and this is a card of lengths"
    if (w ~ /,-/)
        return point
    sub(/,/, ".", w)
    return point "; if the comma is a decimal one, " steps_for(w)
}

function point_fault(w,    part, parts, what) {
    parts = split(w, part, ",")
    if (parts == 1 && w ~ /^[-+]?[0-9.]+(mm)?$/)
        return "is one number, and this is a card of points: write two with a comma, as 4000,0"
    if (parts != 2)
        return "is not two numbers joined by a comma"
    what = steps_fault(part[1])
    if (what != "")
        return "is wrong in x: `" visible(part[1], 24) "` " what
    what = steps_fault(part[2])
    return what == "" ? "" : "is wrong in y: `" visible(part[2], 24) "` " what
}

function coefficient_fault(w) {
    if (w ~ /,/)
        return "is a point, and a coefficient is one number"
    if (w ~ /^[-+]?[0-9]*[.][0-9]*$/)
        return "has a decimal point: multiply the line and its constant until all are whole"
    return number_fault(w)
}

function cell_fault(w) {
    if (w ~ /^[.*~]$/)
        return ""
    if (w ~ /^[.*~]+$/)
        return "is " length(w) " cells: put a space between them"
    if (w ~ /^[-+]?[0-9]*[.][0-9]*$/)
        return "has a decimal point: weights are 1, 2, 3, 4, 6 and 12"
    if (w ~ /^[-+]?[0-9]+$/)
        return number_fault(w)
    return "is no cell: held is `.`, pulled `*`, loose `~` or a weight"
}
