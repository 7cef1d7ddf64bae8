"""Elements of an SVG, with colors for light and dark schemes and for print. Nothing in it comes from elsewhere: no
font, no script, no other file.
"""
from html import escape

# Each color in the light scheme, which print has too, and in the dark one.
COLORS = {
    "paper": ("#ffffff", "#15181c"),
    "ink": ("#222222", "#e6e6e6"),
    "soft": ("#5f5f5f", "#a9aeb5"),
    "faint": ("#cccccc", "#454b53"),
    "chain": ("#777777", "#9aa0a8"),
    "red": ("#b3261e", "#ff8a80"),
    "amber": ("#9a5b00", "#ffb74d"),
    "green": ("#2e7d32", "#81c784"),
    "blue": ("#1f6fb2", "#64b5f6"),
    "violet": ("#7b3fa0", "#ce93d8"),
    "grey": ("#666666", "#9e9e9e"),
    "held": ("#8bc98f", "#4e8f54"),
    "risk": ("#f0a63c", "#d98a1d"),
    "leaves": ("#9cc3e6", "#3f77a8"),
    "other": ("#dddddd", "#3a3f46"),
    "pale-red": ("#f1c7c3", "#6b2f2b"),
    "pale-blue": ("#c3daf0", "#2b4a68"),
}
FONT = "Helvetica, Arial, 'DejaVu Sans', sans-serif"
MONO = "Menlo, Consolas, 'DejaVu Sans Mono', monospace"
# How wide a letter is on the average, of text of size 1; and of text with letters of one width.
WIDE, MONO_WIDE = 0.53, 0.62


def width_of(words, size, mono=False):
    return len(words) * size * (MONO_WIDE if mono else WIDE)


def style():
    """The colors as classes: of what is filled, and of lines."""

    def rules(scheme):
        return "".join(
            f".{name}{{fill:{both[scheme]}}}.{name}-line{{stroke:{both[scheme]};fill:none}}"
            for name, both in COLORS.items()
        )

    def halo(scheme):
        return f".halo{{stroke:{COLORS['paper'][scheme]};stroke-width:4px;paint-order:stroke;stroke-linejoin:round}}"

    dark = f"@media screen and (prefers-color-scheme:dark){{{rules(1)}{halo(1)}}}"
    fonts = f"text{{font-family:{FONT}}}.mono{{font-family:{MONO}}}.bold{{font-weight:bold}}"
    return f"<style>{fonts}{rules(0)}{halo(0)}{dark}</style>"


class Drawing:
    """A list of elements."""

    def __init__(self):
        self.out = []

    def text(self, x, y, words, color="ink", size=12, anchor="start", more="", turn=False):
        if not words:
            return
        parts = [f'x="{num(x)}" y="{num(y)}" class="{" ".join(filter(None, [color, more]))}" font-size="{size}"']
        parts += [f'text-anchor="{anchor}"'] if anchor != "start" else []
        parts += [f'transform="rotate(-90 {num(x)} {num(y)})"'] if turn else []
        self.out.append(f"<text {' '.join(parts)}>{escape(words)}</text>")

    def line(self, x1, y1, x2, y2, color="ink", width=1.0, more=""):
        ends = f'x1="{num(x1)}" y1="{num(y1)}" x2="{num(x2)}" y2="{num(y2)}"'
        self.out.append(f'<line {ends} class="{color}-line" stroke-width="{num(width)}"{more}/>')

    def box(self, x, y, width, height, color, more=""):
        sizes = f'x="{num(x)}" y="{num(y)}" width="{num(width)}" height="{num(height)}"'
        self.out.append(f'<rect {sizes} class="{color}"{more}/>')

    def circle(self, x, y, radius, color):
        self.out.append(f'<circle cx="{num(x)}" cy="{num(y)}" r="{radius + 1}" class="{color}"/>')
        self.out.append(f'<circle cx="{num(x)}" cy="{num(y)}" r="{radius - 0.7}" class="paper"/>')

    def torn(self, left, right, y):
        """A band that tears what goes down through it: time passes there."""
        step, high = 6, 4
        points = range(int(left), int(right) + step, step)
        upper = [f"{x} {num(y - high + (3 if n % 2 else 0))}" for n, x in enumerate(points)]
        lower = [f"{x} {num(y + high + (3 if n % 2 else 0))}" for n, x in enumerate(points)]
        self.out.append(f'<path class="paper" d="M{" ".join(upper)} {" ".join(reversed(lower))}z"/>')
        for edge in (upper, lower):
            self.out.append(f'<path class="faint-line" d="M{" ".join(edge)}"/>')

    def begin(self, title):
        self.out.append(f"<g><title>{escape(title)}</title>")

    def end(self):
        self.out.append("</g>")

    def svg(self, width, height, title, told):
        """The whole picture, with its title and what it tells, for whoever doesn't see it."""
        heads = "".join(
            f'<marker id="to-{name}" viewBox="0 0 10 10" refX="9" refY="5" markerWidth="8" markerHeight="8" '
            f'orient="auto"><path d="M0 0 10 5 0 10z" class="{name}"/></marker>'
            for name in ("ink", "red", "soft")
        )
        width, height = round(width), round(height)
        first = (
            f'<svg xmlns="http://www.w3.org/2000/svg" width="{width}" height="{height}" '
            f'viewBox="0 0 {width} {height}" role="img" aria-labelledby="told-title told">\n'
            f'<title id="told-title">{escape(title)}</title>\n<desc id="told">{escape(told)}</desc>\n'
            f"{style()}\n<defs>{heads}</defs>\n"
            f'<rect width="{width}" height="{height}" class="paper"/>'
        )
        return "\n".join([first, *self.out, "</svg>"]) + "\n"


def num(value):
    """A length, without digits that nobody sees."""
    return f"{value:.1f}".rstrip("0").rstrip(".")
