"""Plots as SVG, readable on a light and on a dark ground; for year.py and peers.py."""

WIDTH, HEIGHT, LEFT, TOP, GAP = 300, 130, 46, 50, 62
COLOURS = ["a", "b", "c", "d"]
STYLE = """
  text { font: 11px sans-serif; fill: #333 } .title { font-weight: bold } .frame { fill: none; stroke: #999 } .grid { stroke: #ccc }
  polyline { fill: none; stroke-width: 2 } .a { stroke: #b35900 } .b { stroke: #1f6fb4 } .c { stroke: #2b8a3e } .d { stroke: #9c36b5 } .ground { fill: #fff }
  text.a { fill: #b35900; stroke: none } text.b { fill: #1f6fb4; stroke: none } text.c { fill: #2b8a3e; stroke: none } text.d { fill: #9c36b5; stroke: none }
  @media (prefers-color-scheme: dark) {
    .ground { fill: #161b22 } text { fill: #ccc } .frame { stroke: #777 } .grid { stroke: #444 }
    .a { stroke: #ffa94d } .b { stroke: #74c0fc } .c { stroke: #69db7c } .d { stroke: #e599f7 }
    text.a { fill: #ffa94d } text.b { fill: #74c0fc } text.c { fill: #69db7c } text.d { fill: #e599f7 }
  }
"""


def panel(column, line, title, across, up, lines, inside=False):
    """One plot. An axis is a function to the part of its length, and the values that it shows, with their names; the lines are names and points. The
    names of the lines stand above the plot or, one below the other, inside it."""
    x0, y0 = LEFT + column * (WIDTH + GAP), TOP + line * (HEIGHT + GAP)
    x = lambda value: x0 + WIDTH * across[0](value)
    y = lambda value: y0 + HEIGHT - HEIGHT * up[0](value)
    out = [f'<text class="title" x="{x0}" y="{y0 - 24}">{title}</text>']
    for value, name in up[1]:
        out.append(f'<line class="grid" x1="{x0}" x2="{x0 + WIDTH}" y1="{y(value):.1f}" y2="{y(value):.1f}"/>')
        out.append(f'<text x="{x0 - 6}" y="{y(value) + 4:.1f}" text-anchor="end">{name}</text>')
    for value, name in across[1]:
        out.append(f'<text x="{x(value):.1f}" y="{y0 + HEIGHT + 15}" text-anchor="middle">{name}</text>')
    out.append(f'<rect class="frame" x="{x0}" y="{y0}" width="{WIDTH}" height="{HEIGHT}"/>')
    at = x0
    for i, (colour, (name, points)) in enumerate(zip(COLOURS, lines)):
        points = " ".join(f"{x(a):.1f},{y(b):.1f}" for a, b in points)
        out.append(f'<polyline class="{colour}" points="{points}"/>')
        if inside:
            out.append(f'<text class="{colour}" x="{x0 + WIDTH - 8}" y="{y0 + 20 + 15 * i}" text-anchor="end">{name}</text>')
        else:
            out.append(f'<text class="{colour}" x="{at}" y="{y0 - 8}">{name}</text>')
            at += 7 * len(name) + 12
    return out


def even(least, most, step, shown):
    """An axis with even steps."""
    values = [least + i * step for i in range(round((most - least) / step) + 1)]
    return (lambda value: (value - least) / (most - least)), [(value, shown(value)) for value in values]


def draw(columns, lines, label, foot, parts):
    """Prints plots in columns and lines, with a line of text below."""
    width, height = LEFT + columns * (WIDTH + GAP), TOP + lines * (HEIGHT + GAP)
    print(f'<svg xmlns="http://www.w3.org/2000/svg" viewBox="0 0 {width} {height}" role="img" aria-label="{label}">')
    print(f'<style>{STYLE}</style>\n<rect class="ground" width="{width}" height="{height}"/>')
    print("\n".join(parts))
    print(f'<text x="{LEFT}" y="{height - 14}">{foot}</text>\n</svg>')
