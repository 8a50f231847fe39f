# The exact places of each accepted pull, in steps and in millimetres. Read after tools/card.awk.

BEGIN {
    print "# Where each accepted pull puts each name: in steps, exactly, and in millimetres, rounded"
    print "# to a thousandth; 40 steps are 1 mm. Made from the card and its answers, outside the proof."
}

part == "answers" && $1 == "ok" && text[line] ~ /^pull / {
    pulls++
    at[pulls] = line
    table[pulls] = places()
}

END {
    for (i = 1; i <= pulls; i++) {
        became = fate[at[i]] == "" ? "not kept: the card ends" : fate[at[i]]
        print "\nline " at[i] ": " visible(text[at[i]], 100)
        print "  " became "\n" table[i]
    }
    if (pulls == 0)
        print "\nno pull is accepted"
}

# A line for each name, its columns as wide as they have to be.
function places(    s, k, steps, mm, wide, far, shape, rows) {
    wide = far = 0
    for (s = 1; s <= count; s++) {
        steps[s] = mm[s] = ""
        for (k = 1; k <= size; k++) {
            steps[s] = steps[s] (k > 1 ? ", " : "") fraction(proposed[s, k], pulled_over)
            mm[s] = mm[s] (k > 1 ? ", " : "") millimetres(proposed[s, k], pulled_over)
        }
        if (length(steps[s]) > wide)
            wide = length(steps[s])
        if (length(mm[s]) > far)
            far = length(mm[s])
    }
    shape = "    %-8s  %" wide "s steps  %" far "s mm"
    for (s = 1; s <= count; s++)
        rows = rows (s > 1 ? "\n" : "") sprintf(shape, name[s], steps[s], mm[s])
    return rows
}
