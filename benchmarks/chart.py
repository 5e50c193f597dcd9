"""A chart of bars in groups, as SVG."""
from xml.sax.saxutils import escape

WIDTH, LABEL, BAR, GAP, HEAD = 860, 250, 17, 30, 46
ROOM = WIDTH - LABEL - 90
COLOURS = {"streams": "#2f6f9f", "Redis": "#b5473c", "JetStream": "#6a8f3c"}


def text(x, y, told, size=12, anchor="start", weight="normal"):
    return (
        f'<text x="{x:.0f}" y="{y:.0f}" font-size="{size}" text-anchor="{anchor}" font-weight="{weight}">'
        f"{escape(told)}</text>"
    )


def draw(title, groups):
    """The chart: a group is its title and its bars, and a bar its name and its number."""
    most = max(number for _, bars in groups for _, number in bars)
    parts, y = [text(10, 24, title, size=16, weight="bold")], HEAD
    for name, bars in groups:
        parts.append(text(10, y + 13, name, weight="bold"))
        y += BAR + 3
        for way, number in bars:
            colour = COLOURS[way.split(",")[0]]
            length = max(1, ROOM * number / most)
            parts.append(text(LABEL - 8, y + 13, way, anchor="end"))
            parts.append(f'<rect x="{LABEL}" y="{y}" width="{length:.1f}" height="{BAR - 3}" fill="{colour}"/>')
            parts.append(text(LABEL + length + 6, y + 12, f"{number:,.0f}"))
            y += BAR
        y += GAP - BAR
    head = (
        f'<svg xmlns="http://www.w3.org/2000/svg" width="{WIDTH}" height="{y}" viewBox="0 0 {WIDTH} {y}" '
        'font-family="sans-serif">\n'
        f'<rect width="{WIDTH}" height="{y}" fill="white"/>\n'
    )
    return head + "\n".join(parts) + "\n</svg>\n"
