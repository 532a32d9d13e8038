"""The picture of the folders of python/pertxogai: each above all that it imports, with an arrow to what it imports."""
import import_graph

WIDTH, HEIGHT, ACROSS, DOWN = 110, 32, 140, 84
HIDDEN = {"__main__", "_former", "_later", "pertxogai"}
"""What only starts the others, and what hands their names on."""
SAYS = "Folders and modules of python/pertxogai; an arrow leads to what is imported. What follows from others is left out."


def picture():
    """The picture as SVG."""
    folders = import_graph.folders(import_graph.graph())
    shown = {name: others - HIDDEN for name, others in folders.items() if name not in HIDDEN}
    rows = import_graph.levels(shown)[::-1]
    most = max(map(len, rows))
    middles = {name: (place(count, len(row), most), 20 + HEIGHT / 2 + DOWN * above)
               for above, row in enumerate(rows) for count, name in enumerate(row)}
    width, height = ACROSS * most, 40 + HEIGHT + DOWN * (len(rows) - 1)
    lines = [f'<svg xmlns="http://www.w3.org/2000/svg" width="{width}" height="{height}" viewBox="0 0 {width} {height}">',
             f"<title>{SAYS}</title>", STYLE, f'<rect width="{width}" height="{height}" fill="#fff"/>']
    lines += [arrow(middles[name], middles[other]) for name, others in sorted(import_graph.nearest(shown).items())
              for other in sorted(others)]
    lines += [box(name, *middles[name]) for name in sorted(middles)]
    return "\n".join([*lines, "</svg>"]) + "\n"


STYLE = """<defs><marker id="tip" viewBox="0 0 8 8" refX="8" refY="4" markerWidth="8" markerHeight="8" orient="auto">
<path d="M0 0 8 4 0 8z" fill="#567"/></marker></defs>
<style>text{font:14px sans-serif;text-anchor:middle;fill:#123}rect.box{fill:#eef3f8;stroke:#567}
path.way{fill:none;stroke:#567;marker-end:url(#tip)}</style>"""


def place(count, size, most):
    """Where across the picture the middle of a box lies, of so many in its row."""
    return ACROSS * (count + 0.5 + (most - size) / 2)


def arrow(one, other):
    """A way from the lower edge of one box to the upper edge of another."""
    (x, y), (u, v) = one, other
    y, v = y + HEIGHT / 2, v - HEIGHT / 2
    bend = (v - y) / 2
    return f'<path class="way" d="M{x:g} {y:g}C{x:g} {y + bend:g} {u:g} {v - bend:g} {u:g} {v:g}"/>'


def box(name, x, y):
    """A folder, or a module, by its name."""
    left, top = x - WIDTH / 2, y - HEIGHT / 2
    return (f'<rect class="box" x="{left:g}" y="{top:g}" width="{WIDTH}" height="{HEIGHT}" rx="5"/>'
            f'<text x="{x:g}" y="{y + 5:g}">{name}</text>')
