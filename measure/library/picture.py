"""Pictures of tables, in SVG: shaded cells, and what stands beside them."""
GREENS_TO_REDS = ("#2e7d32", "#9ccc65", "#fff176", "#ffb74d", "#e57373", "#b71c1c")


def shade(value, limits):
    """Green up to the first of five limits, red above the last."""
    return GREENS_TO_REDS[sum(value > limit for limit in limits)]


def text(x, y, told, more=""):
    return f'<text x="{x}" y="{y}"{more}>{told}</text>'


def drawing(width, height, parts):
    """A white page with these parts."""
    head = f'<svg xmlns="http://www.w3.org/2000/svg" viewBox="0 0 {width} {height}" font-family="sans-serif" font-size="12">'
    return "\n".join([head, f'<rect width="{width}" height="{height}" fill="white"/>', *parts, "</svg>", ""])


def head_of_column(x, y, told, leans):
    if leans:
        return f'<text transform="translate({x + 20} {y + 2}) rotate(-50)">{told}</text>'
    return text(x + 31, y, told, ' text-anchor="middle"')


def shaded_cells(groups, columns, names, limits, cell, caption):
    """A picture with the groups of columns side by side and a row for each name. A cell is its value and what is written in it."""
    wide, high, left, leans = 62, 22, 92, max(map(len, columns)) > 8
    top = 150 if leans else 50
    width, height = left + len(groups) * (len(columns) * wide + 20), top + len(names) * high + 30
    parts = []
    for place, group in enumerate(groups):
        x0 = left + place * (len(columns) * wide + 20)
        parts.append(text(x0, 16, group, ' font-weight="bold"'))
        for number, column in enumerate(columns):
            x = x0 + number * wide
            parts.append(head_of_column(x, top - 8, column, leans))
            for row, name in enumerate(names):
                value, told = cell(group, column, name)
                y, colour = top + row * high, shade(value, limits)
                ink = "white" if colour in (GREENS_TO_REDS[0], GREENS_TO_REDS[-1]) else "black"
                parts.append(f'<rect x="{x}" y="{y}" width="{wide - 2}" height="{high - 2}" fill="{colour}"/>')
                parts.append(text(x + wide // 2, y + 15, told, f' text-anchor="middle" fill="{ink}"'))
    for row, name in enumerate(names):
        parts.append(text(left - 8, top + row * high + 15, name, ' text-anchor="end"'))
    return drawing(width, height, [*parts, text(left, height - 10, caption)])


def squares(columns, panels, limits, captions):
    """A picture of panels, each a name and its rows of values: a small square for each value. Below stand lines of text."""
    size, side = 2, max(len(rows) for _, rows in panels)
    step = size * max(side, max(len(rows[0]) for _, rows in panels)) + 20
    parts = []
    for place, (name, rows) in enumerate(panels):
        x0, y0 = 10 + place % columns * step, 24 + place // columns * (step + 10)
        parts.append(text(x0, y0 - 6, name))
        for colour in GREENS_TO_REDS:
            path = "".join(strokes(rows, colour, limits, size, x0, y0))
            if path:
                parts.append(f'<path d="{path}" stroke="{colour}" stroke-width="{size}"/>')
    bottom = 24 + -(-len(panels) // columns) * (step + 10)
    parts += [text(10, bottom + 16 * number, caption) for number, caption in enumerate(captions)]
    return drawing(10 + columns * step, bottom + 16 * len(captions), parts)


def strokes(rows, colour, limits, size, x0, y0):
    """A stroke for each run of neighbours of one colour."""
    for y, row in enumerate(rows):
        colours, begin = [shade(value, limits) for value in row], 0
        while begin < len(row):
            end = begin
            while end < len(row) and colours[end] == colours[begin]:
                end += 1
            if colours[begin] == colour:
                yield f"M{x0 + size * begin} {y0 + size * y + size // 2}h{size * (end - begin)}"
            begin = end


def columns(panels, marks, step, caption):
    """A picture of panels side by side, each a name and its columns, in percent. Marks stand below the columns that they name, and lines at
    each step."""
    wide, high, left, top = 14, 200, 40, 40
    most = -(-max(max(values) for _, values in panels) // step) * step
    width = left + sum(len(values) * wide + 60 for _, values in panels)
    parts, x0, floor = [], left, top + high
    for name, values in panels:
        parts.append(text(x0, 20, name, ' font-weight="bold"'))
        for value in range(0, int(most) + 1, step):
            y = floor - high * value / most
            parts.append(f'<path d="M{x0} {y:.1f}h{len(values) * wide}" stroke="#cccccc"/>')
            parts.append(text(x0 - 6, f"{y + 4:.1f}", value, ' text-anchor="end"'))
        for at, value in enumerate(values):
            x, tall = x0 + at * wide + 1, high * value / most
            parts.append(f'<rect x="{x}" y="{floor - tall:.1f}" width="{wide - 2}" height="{tall:.1f}" fill="{GREENS_TO_REDS[0]}"/>')
        parts += [text(x0 + at * wide, floor + 18, told, ' text-anchor="middle"') for at, told in marks.items()]
        x0 += len(values) * wide + 60
    return drawing(width, floor + 60, [*parts, text(left, floor + 46, caption)])
