# Draws lengths as marks on a ruler, the kept ones above it. Read with tools/picture.awk.

function ruler(    low, top, s, step, i, x, band) {
    low = top = 0
    for (s = 1; s <= count; s++) {
        low = -larger(-low, -kept[s, 1] / over / 40)
        top = larger(top, kept[s, 1] / over / 40)
        if (with_new) {
            low = -larger(-low, -proposed[s, 1] / pulled_over / 40)
            top = larger(top, proposed[s, 1] / pulled_over / 40)
        }
    }
    if (low == top)
        top = 10
    scale = 740 / (top - low)
    zero = 50 - low * scale
    wide = 840
    band = flags(kept, over) * leading + 14
    draw_flags(band, -1, kept_colour)
    high = band + 34
    if (with_new) {
        high += flags(proposed, pulled_over) * leading + 14
        draw_flags(band + 34, 1, new_colour)
    }
    add("<rect x=\"20\" y=\"" px(band) "\" width=\"800\" height=\"34\" fill=\"none\" " \
        "stroke=\"#8a7a4a\"/>")
    step = round_step(64 / scale)
    for (i = -int(-low / step); i * step <= top + step / 1000; i++) {
        x = zero + i * step * scale
        draw_line(x, band + 11, x, band + 5, "stroke=\"#8a7a4a\"")
        draw_line(x, band + 29, x, band + 23, "stroke=\"#8a7a4a\"")
        write_at(x, band + 21, "middle", small, tick(i * step))
    }
}

# Gives each place among numerators over d a flag, with its names and its millimetres, that reaches
# from its mark to the right, and a row above all that it reaches over, so that no pole crosses a
# flag. Says how many rows there are.
function flags(at, d,    i, j, rows) {
    gather(at)
    for (i = 1; i <= places; i++) {
        pole[i] = zero + at[place[i, 1], 1] / d / 40 * scale
        label_place(i, "  " millimetres(at[place[i, 1], 1] + 0, d))
        wide = larger(wide, pole[i] + broad[i] + 20)
        turn[i] = i
        for (j = i; j > 1 && pole[turn[j]] > pole[turn[j - 1]]; j--) {
            turn[0] = turn[j]
            turn[j] = turn[j - 1]
            turn[j - 1] = turn[0]
        }
    }
    rows = 0
    for (i = 1; i <= places; i++) { # from the right
        row[i] = 0
        for (j = 1; j < i; j++)
            if (pole[turn[j]] < pole[turn[i]] + broad[turn[i]] + 10)
                row[i] = larger(row[i], row[j] + tall[turn[j]])
        rows = larger(rows, row[i] + tall[turn[i]])
    }
    return rows
}

# Draws the flags from the ruler's edge at y on: up where way is -1, down where it is 1.
function draw_flags(y, way, colour,    i, j, p, far) {
    for (i = 1; i <= places; i++) {
        p = turn[i]
        far = row[i] + tall[p]
        draw_line(pole[p], y - way * 5, pole[p], y + way * (far * leading + 4), \
            "stroke=\"" colour "\"")
        for (j = 1; j <= tall[p]; j++)
            write_at(pole[p] + 4, y + way * 8 + (way < 0 ? (j - far) * leading - 2 : \
                (row[i] + j) * leading - 3), "start", names " fill=\"" colour "\"", label[p, j])
    }
}
