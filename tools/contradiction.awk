# Says which relations contradict each other where a pull is refused as impossible (13). Read after
# tools/card.awk.
#
# The relations that count are taken one after the other. From each the ones before it are taken off
# until it is left with a loose parameter that they do not have, or with none. In the second case a
# combination of relations is left in which only what is held and pulled stands; where that does not
# come to the combination's constant, no placing can. All numbers are whole; where one would pass
# 2^53, beyond which awk does not have each of them, nothing is said.

BEGIN {
    far = 9007199254740992
}

# Which relations contradict each other at the pull on line n, or nothing where it is not found.
function why_impossible(n,    word, wish, i, best, found) {
    split(text[n], word, " ")
    for (i = 1; i <= count; i++)
        coordinates(word[i + 1], wish, i)
    lost = 0
    count_relations()
    for (i = 1; i <= counted; i++) {
        reduce(i)
        if (lead[i] == 0 && differ(i, wish)) {
            found++
            if (best == 0 || taking(i) < taking(best))
                best = i
        }
    }
    if (found == 0 || lost)
        return ""
    differ(best, wish)
    return contradiction(best) (found > 1 ? " " found - 1 " more contradict in this pull." : "")
}

# The relations that have a coefficient other than 0 at a pulled or loose parameter.
function count_relations(    i, s) {
    loose = counted = 0
    for (s = 1; s <= count; s++)
        if (role[s] != "." && role[s] != "*")
            loose_at[++loose] = s
    for (i = 0; i < bound; i++)
        for (s = 1; s <= count; s++)
            if (factor[i, s] != 0 && role[s] != ".") {
                relation[++counted] = i
                break
            }
}

# Makes row i: places 1 to `loose` have the loose parameters' coefficients, and those after them say
# how often each relation takes part. Place lead[i] is the first that is not 0 among the former.
function reduce(i,    j, k, p, q, g, width) {
    width = loose + counted
    for (k = 1; k <= width; k++)
        row[i, k] = k > loose ? k - loose == i : factor[relation[i], loose_at[k]]
    for (j = 1; j < i; j++) {
        if (lead[j] == 0 || row[i, lead[j]] == 0)
            continue
        p = row[j, lead[j]]
        q = row[i, lead[j]]
        g = 0
        for (k = 1; k <= width; k++) {
            row[i, k] = plus(plus(0, p, row[i, k]), -q, row[j, k])
            g = row[i, k] == 0 ? g : divisor(g, row[i, k])
        }
        for (k = 1; k <= width; k++)
            row[i, k] /= g
    }
    lead[i] = 0
    for (k = loose; k >= 1; k--)
        if (row[i, k] != 0)
            lead[i] = k
}

# How many relations take part in row i.
function taking(i,    j, n) {
    for (j = 1; j <= counted; j++)
        n += row[i, loose + j] != 0
    return n
}

# Adds up the relations of row i, the first of them taken positively: total[s] is a parameter's
# coefficient, asked[k] the constant, and comes[k], over the sheet's denominator, what is held and
# pulled comes to. Says whether these two differ.
function differ(i, wish,    j, k, s, times, u, differs) {
    for (s = 1; s <= count; s++)
        total[s] = 0
    for (k = 1; k <= size; k++)
        asked[k] = comes[k] = 0
    for (j = counted; j >= 1; j--)
        if (row[i, loose + j] != 0)
            times = row[i, loose + j]
    for (j = 1; j <= counted; j++) {
        take[j] = times < 0 ? -row[i, loose + j] : row[i, loose + j]
        for (s = 1; s <= count; s++)
            total[s] = plus(total[s], take[j], factor[relation[j], s])
        for (k = 1; k <= size; k++)
            asked[k] = plus(asked[k], take[j], constant[relation[j], k])
    }
    for (k = 1; k <= size; k++) {
        for (s = 1; s <= count; s++) {
            u = role[s] == "." ? kept[s, k] + 0 : over * wish[s, k]
            comes[k] = plus(comes[k], total[s], u)
        }
        differs = differs || plus(comes[k], -over, asked[k]) != 0
    }
    return differs
}

# sum + a × b; `lost` is set where that may not be exact.
function plus(sum, a, b) {
    if (larger(sum, -sum) + larger(a * b, -a * b) >= far)
        lost = 1
    return sum + a * b
}

function larger(a, b) {
    return a > b ? a : b
}

# Says what `differ` found in row i.
function contradiction(i,    j, which, sum, of) {
    for (j = 1; j <= counted; j++)
        if (take[j] != 0) {
            of = "relation " relation[j]
            sum = sum term(take[j], of, sum)
            which = which (which == "" ? "" : ", ") of " (line " bound_on[relation[j]] ")"
        }
    which = taking(i) == 1 ? which " cannot hold, as nothing is loose in it: it" : \
        which " contradict each other. Nothing is loose in " sum ", which"
    return which " asks for " equation() ". What is held and pulled comes to " \
        value(comes, over) "."
}

# A term of a sum, with its sign; `before` is the sum so far.
function term(n, of, before,    sign) {
    sign = n < 0 ? (before == "" ? "-" : " - ") : (before == "" ? "" : " + ")
    n = larger(n, -n)
    return sign (n == 1 ? "" : whole(n) " ") of
}

function equation(    s, sum) {
    for (s = 1; s <= count; s++)
        if (total[s] != 0)
            sum = sum term(total[s], name[s], sum)
    return (sum == "" ? "0" : sum) " = " value(asked, 1)
}

# The value whose coordinates are the numbers of a list over d.
function value(list, d,    k, shown) {
    for (k = 1; k <= size; k++)
        shown = shown (k > 1 ? "," : "") fraction(list[k], d)
    return shown
}
