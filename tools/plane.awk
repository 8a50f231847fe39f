# Draws points in a plane. Read with tools/picture.awk.

BEGIN {
    # where a name is tried, in parts of 15 degrees: at the right, the left, above, below, ..
    split("0 12 6 18 3 21 9 15 1 23 11 13 2 22 10 14 4 20 8 16 5 19 7 17", direction, " ")
}

function plane(    i, box) {
    for (i = 1; i <= count; i++) {
        old_x[i] = kept[i, 1] / over / 40
        old_y[i] = kept[i, 2] / over / 40
        new_x[i] = with_new ? proposed[i, 1] / pulled_over / 40 : old_x[i]
        new_y[i] = with_new ? proposed[i, 2] / pulled_over / 40 : old_y[i]
    }
    fit()
    draw_grid()
    draw_points()
    label_points(kept, old_x, old_y, kept_colour, 0)
    if (with_new)
        label_points(proposed, new_x, new_y, new_colour, 30)
}

# The scale, and where the drawing's area lies: from area_x and area_y on, area_w by area_h, with
# the middle of all points in its middle.
function fit(    i, low_x, top_x, low_y, top_y) {
    low_x = top_x = old_x[1]
    low_y = top_y = old_y[1]
    for (i = 1; i <= count; i++) {
        low_x = -larger(-low_x, larger(-old_x[i], -new_x[i]))
        top_x = larger(top_x, larger(old_x[i], new_x[i]))
        low_y = -larger(-low_y, larger(-old_y[i], -new_y[i]))
        top_y = larger(top_y, larger(old_y[i], new_y[i]))
    }
    mid_x = (low_x + top_x) / 2
    mid_y = (low_y + top_y) / 2
    scale = 20
    if (top_x > low_x || top_y > low_y)
        scale = 1 / larger((top_x - low_x) / 640, (top_y - low_y) / 520)
    area_x = 60
    area_y = 0
    area_w = larger(480, (top_x - low_x) * scale + 160)
    area_h = larger(240, (top_y - low_y) * scale + 90)
    wide = area_x + area_w + 20
    high = area_h + 24
}

function at_x(x) {
    return area_x + area_w / 2 + (x - mid_x) * scale
}

function at_y(y) {
    return area_y + area_h / 2 - (y - mid_y) * scale
}

# Lines at round millimetres, their numbers at the left and below.
function draw_grid(    step, i, reach, style) {
    step = round_step(64 / scale)
    reach = area_w / 2 / scale
    for (i = ceiling((mid_x - reach) / step); i * step <= mid_x + reach; i++) {
        style = "stroke=\"" (i == 0 ? "#aaa" : "#e4e4e4") "\""
        draw_line(at_x(i * step), area_y, at_x(i * step), area_y + area_h, style)
        write_at(at_x(i * step), area_y + area_h + 16, "middle", small, tick(i * step))
    }
    reach = area_h / 2 / scale
    for (i = ceiling((mid_y - reach) / step); i * step <= mid_y + reach; i++) {
        style = "stroke=\"" (i == 0 ? "#aaa" : "#e4e4e4") "\""
        draw_line(area_x, at_y(i * step), area_x + area_w, at_y(i * step), style)
        write_at(area_x - 6, at_y(i * step) + 4, "end", small, tick(i * step))
    }
    add("<rect x=\"" px(area_x) "\" y=\"" px(area_y) "\" width=\"" px(area_w) "\" height=\"" \
        px(area_h) "\" fill=\"none\" stroke=\"#888\"/>")
}

function ceiling(v) {
    return v > int(v) ? int(v) + 1 : int(v)
}

# Dots, and rings with dashes from the dots; names should cover none of them.
function draw_points(    s) {
    boxes = strokes = 0
    for (s = 1; s <= count && with_new; s++) {
        if (kept_line) {
            draw_line(at_x(old_x[s]), at_y(old_y[s]), at_x(new_x[s]), at_y(new_y[s]), \
                "stroke=\"" new_colour "\" stroke-dasharray=\"3 3\"")
            note_stroke(at_x(old_x[s]), at_y(old_y[s]), at_x(new_x[s]), at_y(new_y[s]))
        }
        draw_circle(at_x(new_x[s]), at_y(new_y[s]), 6, \
            "fill=\"none\" stroke=\"" new_colour "\" stroke-width=\"1.5\"")
        note_box(at_x(new_x[s]), at_y(new_y[s]), 14, 14)
    }
    for (s = 1; s <= count; s++) {
        draw_circle(at_x(old_x[s]), at_y(old_y[s]), 3.5, "fill=\"" kept_colour "\"")
        note_box(at_x(old_x[s]), at_y(old_y[s]), 10, 10)
    }
}

# Notes what names should not cover: a box, w by h around a point, or a line, from 12 on from where
# it begins.
function note_box(x, y, w, h) {
    boxes++
    box_x[boxes] = x
    box_y[boxes] = y
    box_w[boxes] = w / 2
    box_h[boxes] = h / 2
}

function note_stroke(x, y, u, v) {
    if (!shortened(x, y, u, v))
        return
    strokes++
    from_x[strokes] = short_x
    from_y[strokes] = short_y
    to_x[strokes] = u
    to_y[strokes] = v
}

# Where a line is that begins 12 further on, if it is as long.
function shortened(x, y, u, v,    far) {
    far = sqrt((u - x) * (u - x) + (v - y) * (v - y))
    if (far <= 12)
        return 0
    short_x = x + (u - x) * 12 / far
    short_y = y + (v - y) * 12 / far
    return 1
}

# How bad it is to put a name into the box that is w by h around a point: what it covers, and how
# far it is out of the drawing's area.
function covered(x, y, w, h,    i, across, up, sum) {
    w /= 2
    h /= 2
    for (i = 1; i <= boxes; i++) {
        across = w + box_w[i] - distance(x, box_x[i])
        up = h + box_h[i] - distance(y, box_y[i])
        if (across > 0 && up > 0)
            sum += across * up
    }
    for (i = 1; i <= strokes; i++)
        if (meets(from_x[i], from_y[i], to_x[i], to_y[i], x, y, w, h))
            sum += 40
    return sum + 100 * (larger(0, area_x + w - x) + larger(0, x + w - area_x - area_w) + \
        larger(0, area_y + h - y) + larger(0, y + h - area_y - area_h))
}

# How bad it is to draw a line, by the boxes that it crosses.
function crossed(x, y, u, v,    i, sum) {
    if (!shortened(x, y, u, v))
        return 0
    for (i = 1; i <= boxes; i++)
        if (meets(short_x, short_y, u, v, box_x[i], box_y[i], box_w[i], box_h[i]))
            sum += 40
    return sum + 0
}

function distance(a, b) {
    return a < b ? b - a : a - b
}

# Whether a line meets a box, told by its middle and half of its width and height.
function meets(x, y, u, v, mx, my, w, h,    across) {
    if ((x < mx - w && u < mx - w) || (x > mx + w && u > mx + w) || \
        (y < my - h && v < my - h) || (y > my + h && v > my + h))
        return 0
    # whether all corners are on one side of it
    across = (u - x) * (my - y) - (v - y) * (mx - x)
    return distance(across, 0) <= distance(u, x) * h + distance(v, y) * w
}

# Names the places of points; one that lies nearer than `apart` to its dot goes without.
function label_points(at, x, y, colour, apart,    i, s, dx, dy) {
    gather(at)
    for (i = 1; i <= places; i++) {
        s = place[i, 1]
        dx = at_x(x[s]) - at_x(old_x[s])
        dy = at_y(y[s]) - at_y(old_y[s])
        if (dx * dx + dy * dy < apart * apart)
            continue
        label_place(i, "")
        if (with_new && !kept_line && colour == kept_colour) {
            label[i, tall[i] = 1] = "new sheet"
            broad[i] = 9 * letter
        }
        place_label(i, at_x(x[s]), at_y(y[s]), colour)
    }
}

# Puts label i near a point: in the first of rings around it, and of 24 directions on each, where it
# covers nothing; else where that is least bad. A label that is not beside its point gets a line.
function place_label(i, x, y, colour,    ring, n, gap, w, h, u, v, bad, least) {
    w = broad[i] + 2
    h = tall[i] * leading
    least = -1
    for (ring = 0; ring < 12 && least != 0; ring++)
        for (n = 1; n <= 24 && least != 0; n++) {
            gap = 7 + 6 * ring + ring * ring
            u = x + cos(direction[n] * 0.2617994) * (gap + w / 2)
            v = y - sin(direction[n] * 0.2617994) * (gap + h / 2)
            bad = covered(u, v, w, h)
            if (ring > 0 && (least < 0 || bad < least))
                bad += crossed(x, y, nearest(x, u, w), nearest(y, v, h))
            if (least < 0 || bad < least) {
                least = bad
                label_x = u
                label_y = v
                label_gap = gap
            }
        }
    note_box(label_x, label_y, w, h)
    if (label_gap > 7) {
        u = nearest(x, label_x, w)
        v = nearest(y, label_y, h)
        draw_line(x, y, u, v, "stroke=\"" colour "\" stroke-width=\"0.6\"")
        note_stroke(x, y, u, v)
    }
    for (n = 1; n <= tall[i]; n++)
        write_at(label_x, label_y - h / 2 + n * leading - 4, "middle", \
            names " fill=\"" colour "\"", label[i, n])
}

# Where a stretch, told by its middle and its width, is nearest to x.
function nearest(x, middle, w) {
    return larger(middle - w / 2, -larger(-middle - w / 2, -x))
}
