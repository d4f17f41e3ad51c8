"""Pictures as SVG: shapes and texts that are added one by one, in colours and sizes that all pictures have."""

import html
import math

# The ground, what is written on it, fainter text, lines, and the fill of boxes.
WHITE, INK, FAINT, LINE, BOX = '#ffffff', '#1f2933', '#5f6c7b', '#c5ced8', '#f4f6f8'

# What is sent, and what is sent before any input.
DIRECT, PREPARED, BEFORE = '#2f6db3', '#d1701f', '#e9b98e'

# A colour for each party, and one for each of three summands.
PARTIES = ['#2f6db3', '#d1701f', '#2a8c6a', '#a3476f', '#7a6cb8', '#8a7420', '#3f8fa6', '#b5483c', '#5b8a34', '#8d5fa0', '#63717f', '#b07d4f']
SUMMANDS = ['#f6c85f', '#9ccfe0', '#c9a3d9']

FONT = "-apple-system, 'Segoe UI', Helvetica, Arial, 'DejaVu Sans', sans-serif"

# About how wide a letter is in the widest of these fonts, as a part of its size: a wide one, a narrow one, and any other.
WIDTHS = {**dict.fromkeys('mMW%@', 0.98), **dict.fromkeys('fijlrtI.,:;\'|()[] ', 0.36)}
OTHER = 0.63


def number(value):
    """A coordinate, with one place after the point where it has one."""
    return f'{round(value, 1):g}'


def width_of(text, size):
    """About how wide a text is."""
    return size * sum(WIDTHS.get(letter, OTHER) for letter in text)


def short(text, size, width):
    """A text cut to a width."""
    if width_of(text, size) <= width:
        return text
    while text and width_of(text + '…', size) > width:
        text = text[:-1]
    return text + '…'


def count(value):
    """A count as people read it."""
    return f'{value:,}'


class Drawing:
    """A picture of this width. Its height is told at the end."""

    def __init__(self, width, title):
        self.width, self.title, self.parts = width, title, []

    def add(self, name, text=None, **fields):
        words = ''.join(f' {key.rstrip("_").replace("_", "-")}="{number(value) if isinstance(value, (int, float)) else html.escape(str(value))}"' for key, value in fields.items())
        self.parts.append(f'<{name}{words}/>' if text is None else f'<{name}{words}>{html.escape(text, quote=False)}</{name}>')

    def text(self, x, y, text, size=13, fill=INK, anchor='start', weight='normal', **fields):
        self.add('text', text, x=x, y=y, font_size=size, fill=fill, text_anchor=anchor, font_weight=weight, **fields)

    def box(self, x, y, width, height, fill=BOX, stroke=LINE, radius=8, **fields):
        self.add('rect', x=x, y=y, width=width, height=height, rx=radius, fill=fill, stroke=stroke, **fields)

    def line(self, x, y, to_x, to_y, stroke=LINE, width=1, **fields):
        self.add('line', x1=x, y1=y, x2=to_x, y2=to_y, stroke=stroke, stroke_width=width, **fields)

    def path(self, path, stroke=LINE, width=1.5, fill='none', **fields):
        self.add('path', d=path, stroke=stroke, stroke_width=width, fill=fill, **fields)

    def head(self, x, y, angle, fill, size=7):
        """The head of an arrow that comes to a point under an angle."""
        corners = [(x, y)] + [(x - size * math.cos(angle + turn), y - size * math.sin(angle + turn)) for turn in (0.42, -0.42)]
        self.add('polygon', points=' '.join(f'{number(a)},{number(b)}' for a, b in corners), fill=fill)

    def arrow(self, x, y, to_x, to_y, stroke=FAINT, width=1.5):
        angle = math.atan2(to_y - y, to_x - x)
        self.line(x, y, to_x - 5 * math.cos(angle), to_y - 5 * math.sin(angle), stroke, width)
        self.head(to_x, to_y, angle, stroke)

    def dot(self, x, y, radius, fill, letter='', size=13):
        self.add('circle', cx=x, cy=y, r=radius, fill=fill)
        if letter:
            self.text(x, y + size * 0.36, letter, size, WHITE, 'middle', 'bold')

    def chip(self, x, y, text, fill, width=30, height=18, size=12):
        """A small box around a point, with a text in it or none."""
        self.box(x - width / 2, y - height / 2, width, height, fill, 'none', 4)
        if text:
            self.text(x, y + size * 0.36, text, size, INK, 'middle')

    def svg(self, height):
        head = (f'<svg xmlns="http://www.w3.org/2000/svg" viewBox="0 0 {number(self.width)} {number(height)}" width="{number(self.width)}" '
                f'height="{number(height)}" role="img" font-family="{html.escape(FONT)}">')
        ground = f'<rect width="{number(self.width)}" height="{number(height)}" fill="{WHITE}"/>'
        return '\n'.join([head, f'<title>{html.escape(self.title)}</title>', ground, *self.parts, '</svg>']) + '\n'
