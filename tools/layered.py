"""A plain picture of crates by level, where graphviz isn't there: boxes in rows, straight lines."""
GAP, ROW, HIGH, SIGN = 14, 74, 22, 6.6
DASHED = 'stroke="#8c8c8c" stroke-dasharray="4 2"'


def ordered(rows, below):
    """The rows, each ordered by where the middle of a box's neighbours is, up and down by turns."""
    above = {name: [it for it in below if name in below[it]] for name in below}
    for sweep in range(24):
        near, walk = (below, rows) if sweep % 2 == 0 else (above, rows[::-1])
        place = {name: n / len(row) for row in rows for n, name in enumerate(row)}
        for row in walk:
            middle = {it: place[it] for it in row}
            for name in row:
                of_near = [place[it] for it in near[name]]
                middle[name] = sum(of_near) / len(of_near) if of_near else place[name]
            row.sort(key=middle.get)
            place.update({name: n / len(row) for n, name in enumerate(row)})
    return rows


def wide(name):
    return round(len(name) * SIGN + 14)


def placed(rows):
    """The left edge and the top of each box, the lowest level in the last row."""
    widest = max(sum(wide(it) + GAP for it in row) for row in rows)
    spots = {}
    for n, row in enumerate(reversed(rows)):
        room = (widest - sum(wide(it) for it in row)) / (len(row) + 1)
        left = room
        for name in row:
            spots[name] = (round(left), GAP + n * ROW)
            left += wide(name) + room
    return spots, widest


def box(name, spot, is_dashed, is_bold):
    left, top = spot
    look = DASHED if is_dashed else f'stroke="black" stroke-width="{2 if is_bold else 1}"'
    place = f'x="{left + wide(name) / 2:.0f}" y="{top + 15}" text-anchor="middle"'
    return [
        f'<rect x="{left}" y="{top}" width="{wide(name)}" height="{HIGH}" fill="white" {look}/>',
        f'<text {place} font-family="sans-serif" font-size="11">{name}</text>',
    ]


def line(upper, lower, spots):
    (x, y), (u, v) = spots[upper], spots[lower]
    start = f'x1="{x + wide(upper) / 2:.0f}" y1="{y + HIGH}"'
    end = f'x2="{u + wide(lower) / 2:.0f}" y2="{v}"'
    return f'<line {start} {end} stroke="#7f7f7f" marker-end="url(#tip)"/>'


def picture(levels, below, is_dashed, is_bold):
    """The text of an SVG of these crates, by their levels and those that each stands on."""
    rows = [[it for it in levels if levels[it] == n] for n in sorted(set(levels.values()))]
    spots, widest = placed(ordered(rows, below))
    tip = '<path d="M0,0 L6,3 L0,6 z" fill="#7f7f7f"/>'
    mark = 'id="tip" markerWidth="6" markerHeight="6" refX="6" refY="3" orient="auto"'
    lines = [
        f'<svg xmlns="http://www.w3.org/2000/svg" width="{widest}" height="{len(rows) * ROW}">',
        '<rect width="100%" height="100%" fill="white"/>',
        f"<defs><marker {mark}>{tip}</marker></defs>",
    ]
    lines += [line(upper, lower, spots) for upper in below for lower in below[upper]]
    for name in levels:
        lines += box(name, spots[name], is_dashed(name), is_bold(name))
    return "\n".join([*lines, "</svg>", ""])
