# Explains each refused line of a card: its number and text, what was wrong, which value it is and
# what to do, in the words of docs/refusals.md (part=page) and of tools/reasons.awk. With brief=yes
# it prints one line for each instead. Read after tools/card.awk, form.awk, contradiction.awk and
# reasons.awk.

# A section of the page: a refusal's number, a full stop, a title; then its items. Examples, between
# lines of ```, are left out.
part == "page" && /^```/ { inside = !inside }
part == "page" && /^## / && !inside {
    number = title = substr($0, 4)
    sub(/[.] .*/, "", number)
    sub(/^[^.]*[.] /, "", title)
    titles[number] = title
    items[number] = 0
}
part == "page" && /^- / { items[number]++ }
part == "page" && /^(- |  )/ && !inside {
    item = items[number]
    words = substr($0, 3)
    page[number, item] = page[number, item] (/^-/ ? "" : " ") words
}

part == "answers" && /^no / {
    number = no[line]
    if (first == "bad") {
        number = number " in the first line"
        line = 1
    }
    no[line] = $2
    if (brief == "yes")
        print "line " line ": no " number ", " titles[number] ": " visible(text[line], 100)
    else
        explain()
}

function explain(    item, which, said) {
    print "line " line ": " visible(text[line], 100)
    print "    no " $2 ": " titles[number]
    which = which_value(line)
    for (item = 1; item <= items[number]; item++) {
        said = page[number, item]
        if (said ~ /^Which value: / && which != "")
            said = "Which value: " which
        if (said ~ /^What to do: /)
            beware()
        say(said)
    }
    print ""
}

# A pull that is not read makes no call, so that an older proposal is not taken away.
function beware() {
    if ($2 == 16 && phase == "proposed" && tolower(text[line]) ~ /^[ \t]*pull/)
        say("Beware: the proposal of the pull on line " pull_line " still stands, since a line " \
            "that is not read makes no call. A keep would file that one.")
}

# Prints a text as an item, in lines of at most 100 bytes.
function say(said,    word, words, i, shown) {
    words = split(said, word, " ")
    shown = "    -"
    for (i = 1; i <= words; i++) {
        if (length(shown) + length(word[i]) >= 100) {
            print shown
            shown = "     "
        }
        shown = shown " " word[i]
    }
    print shown
}
