# Makes the man page of docs/help.txt: its first line, the lines of its usage, its paragraphs, and
# its lists, each under a line that ends in a colon.

function escaped(s) {
    gsub(/\\/, "\\e", s)
    gsub(/-/, "\\-", s)
    return s ~ /^[.']/ ? "\\&" s : s
}

NR == 1 {
    split($0, title, " - ")
    split(title[1], program, " ")
    print ".TH VALETWREN 1 \"\" \"" escaped(title[1]) "\""
    print ".SH NAME\n" program[1] " \\- " escaped(title[2])
    next
}
/^usage: / { print ".SH SYNOPSIS\n.nf" ; usage = 1 }
usage && NF {
    print escaped(substr($0, 8))
    next
}
usage {
    print ".fi\n.SH DESCRIPTION"
    usage = 0
    next
}
NF == 0 {
    blank = 1
    next
}
/^[^ ].*:$/ {
    print ".SH " toupper(substr($0, 1, length($0) - 1))
    blank = 0
    next
}
/^  [^ ]/ {
    print ".TP\n.B " escaped($1)
    sub(/^ *[^ ]+ */, "")
}
{
    sub(/^ +/, "")
    print (blank ? ".PP\n" : "") escaped($0)
    blank = 0
}
