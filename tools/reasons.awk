# Says which value of a refused line it is, where the card and its answers tell. Read after
# tools/card.awk, tools/form.awk and tools/contradiction.awk.

# Which value line n was refused for, or nothing where that is not worked out.
function which_value(n,    word) {
    split(text[n], word, " ")
    if (no[n] == 4)
        return which_coefficients(word)
    if (no[n] == 5)
        return "the constant, `" word[count + 2] "`."
    if (no[n] == 6)
        return how_untrue(word)
    if (no[n] == 7)
        return bound < 2 ? (bound ? "only relation 0" : "no relation") " is bound." : \
            "relations 0 to " (bound - 1) " are bound."
    if (no[n] == 8)
        return which_cells(word)
    if (no[n] == 9)
        return which_count(word)
    if (no[n] == 11)
        return which_wishes(word)
    if (no[n] == 12)
        return which_gaps(word)
    if (no[n] == 13)
        return why_impossible(n)
    if (no[n] == 16)
        return why_form(n)
    return no[n] == 19 ? why_closed(word[1]) : ""
}

# A list of words with commas, taken up one by one.
function and_then(before, more) {
    return before (before == "" ? "" : ", ") more
}

function which_coefficients(word,    s, listed) {
    for (s = 1; s <= count; s++)
        if (larger(word[s + 1], -word[s + 1]) > 1000)
            listed = and_then(listed, "`" word[s + 1] "` of " name[s])
    return (listed == "" ? "all coefficients are 0" : listed) "."
}

function how_untrue(word,    s, k) {
    coordinates(word[count + 2], constant, "new")
    for (k = 1; k <= size; k++) {
        asked[k] = constant["new", k]
        comes[k] = 0
        for (s = 1; s <= count; s++)
            comes[k] += word[s + 1] * kept[s, k]
    }
    return "the present values, those of " (kept_line ? "line " kept_line : "a new sheet") \
        ", give " value(comes, over) ", and the constant is " value(asked, 1) "."
}

function which_cells(word,    s, listed, pulled, many) {
    for (s = 1; s <= count; s++) {
        pulled += word[s + 1] == "*"
        many += word[s + 1] != "*" && word[s + 1] != "."
        if (word[s + 1] !~ /^([.*~]|1|2|3|4|6|12)$/)
            listed = and_then(listed, "`" word[s + 1] "` of " name[s] " is no weight")
    }
    if (pulled == 0)
        listed = and_then(listed, "no cell is `*`")
    if (many > 24)
        listed = and_then(listed, many " parameters are loose")
    return listed == "" ? "" : listed "."
}

function which_count(word,    s, i, listed) {
    for (s = 1; s <= count; s++)
        role[s] = word[s + 1]
    count_relations()
    for (i = 1; i <= counted; i++)
        listed = and_then(listed, relation[i] " (line " bound_on[relation[i]] ")")
    return counted " relations touch what is pulled or loose: " listed "."
}

function which_wishes(word,    s, k, listed, wish) {
    for (s = 1; s <= count; s++) {
        coordinates(word[s + 1], wish, s)
        for (k = 1; k <= size && role[s] != "."; k++)
            if (larger(wish[s, k], -wish[s, k]) > 47560) {
                listed = and_then(listed, "`" word[s + 1] "` for " name[s])
                break
            }
    }
    return listed "."
}

function which_gaps(word,    i, s, k, gap, listed, wish) {
    for (s = 1; s <= count; s++)
        coordinates(word[s + 1], wish, s)
    count_relations()
    for (i = 1; i <= counted; i++) {
        for (k = 1; k <= size; k++) {
            gap[k] = over * constant[relation[i], k]
            for (s = 1; s <= count; s++)
                gap[k] -= factor[relation[i], s] * (role[s] == "." ? kept[s, k] : over * wish[s, k])
        }
        for (k = 1; k <= size; k++)
            if (larger(gap[k], -gap[k]) > 300000000) {
                listed = and_then(listed, "relation " relation[i] " (line " \
                    bound_on[relation[i]] ") has the gap " value(gap, over))
                break
            }
    }
    return listed "; the denominator d′ is " over "."
}

# Why a call is not open, by the lines before it.
function why_closed(verb,    unread_too) {
    if (unread > ended_on && unread > grip_line && unread > pull_line)
        unread_too = " Line " unread " was not read (16)."
    if (verb ~ /^(bind|unbind|grip)$/)
        return "the grip on line " grip_line " is open: a keep or a drop ends it." unread_too
    if (phase != "free")
        return (lost_pull ? "the pull on line " lost_pull " was refused with " no[lost_pull] : \
            "no pull stands since the grip on line " grip_line) "." unread_too
    if (lost_grip)
        return "the grip on line " lost_grip " was refused with " no[lost_grip] "." unread_too
    return (ended_on ? "the " ended_by " on line " ended_on " ended the last grip" : \
        "no line before this one makes a grip") "." unread_too
}
