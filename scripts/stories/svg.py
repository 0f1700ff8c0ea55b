"""A picture of boxes, texts and arrows, written as SVG, light or dark as the reader's browser is. A text that leaves
the picture or overlaps another one is refused when it is drawn: all letters of a size have one width."""

import re
from html import escape, unescape
from pathlib import Path

# How wide a letter is, for each size of letters in use.
LETTER = {10: 6.05, 11: 6.65, 12: 7.25, 14: 8.45}

STYLE = (Path(__file__).parent / "picture.css").read_text().strip()
TEXT = re.compile(r'<text x="(.*?)" y="(.*?)" font-size="(\d+)" text-anchor="(\w+)" class=".*?">(.*)</text>')


class Picture:
    """A picture of this size. Its title and what is seen on it are for readers who cannot see it."""

    def __init__(self, width, height, title, about):
        self.width, self.height, self.title, self.about = width, height, title, about
        self.items, self.spans = [], []

    def box(self, x, y, width, height, kind="plain", round_by=3):
        self.items.append(f'<rect x="{num(x)}" y="{num(y)}" width="{num(width)}" height="{num(height)}" '
                          f'rx="{round_by}" class="{kind}"/>')

    def text(self, x, y, text, kind="", size=12, anchor="start"):
        self.claim(x, y, text, size, anchor)
        self.items.append(f'<text x="{num(x)}" y="{num(y)}" font-size="{size}" text-anchor="{anchor}" '
                          f'class="{kind}">{escape(text)}</text>')

    def claim(self, x, y, text, high, anchor):
        """Refuses a text of this size that leaves the picture or overlaps another."""
        wide = len(text) * LETTER[high]
        left, top = x - {"start": 0, "middle": wide / 2, "end": wide}[anchor], y - high * 0.8
        if left < 0 or top < 0 or left + wide > self.width or top + high > self.height:
            raise ValueError(f"a text leaves the picture: {text}")
        for other, x, y, w, h in self.spans:
            if left < x + w and x < left + wide and top < y + h and y < top + high:
                raise ValueError(f"a text overlaps another: {text} / {other}")
        self.spans.append((text, left, top, wide, high))

    def cell(self, x, y, width, height, lines, kind="plain", size=12):
        self.box(x, y, width, height, kind)
        step = size + 3
        first = y + height / 2 - step * (len(lines) - 1) / 2 + size * 0.35
        for number, line in enumerate(lines):
            if len(line) * LETTER[size] > width:
                raise ValueError(f"a text leaves its box: {line}")
            self.text(x + width / 2, first + step * number, line, size=size, anchor="middle")

    def arrow(self, x1, y1, x2, y2, kind="line"):
        head = "owed-head" if kind == "owed" else "head"
        self.items.append(f'<line x1="{num(x1)}" y1="{num(y1)}" x2="{num(x2)}" y2="{num(y2)}" class="{kind}" '
                          f'marker-end="url(#{head})"/>')

    def written(self):
        heads = "".join(
            f'<marker id="{name}" viewBox="0 0 8 8" refX="7" refY="4" markerWidth="7" markerHeight="7" orient="auto">'
            f'<path d="M0,0 L8,4 L0,8 z" class="{name}"/></marker>'
            for name in ("head", "owed-head"))
        size = f'width="{self.width}" height="{self.height}" viewBox="0 0 {self.width} {self.height}"'
        return "\n".join([f'<svg xmlns="http://www.w3.org/2000/svg" role="img" {size}>',
                          f"<title>{escape(self.title)}</title>", f"<desc>{escape(self.about)}</desc>",
                          f"<style>{STYLE}</style>", f"<defs>{heads}</defs>",
                          f'<rect class="page" width="{self.width}" height="{self.height}"/>',
                          *self.items, "</svg>", ""])


def drawn(text):
    """A picture that is drawn by hand, as its file has it. Its texts may not leave the picture, their boxes, or overlap
    either. The frame and the style are made anew."""
    head = re.match(r'<svg .* width="(\d+)" height="(\d+)" .*>\n<title>(.*)</title>\n<desc>(.*)</desc>', text)
    picture = Picture(int(head[1]), int(head[2]), unescape(head[3]), unescape(head[4]))
    picture.items = re.split(r'<rect class="page".*\n|</svg>\n', text)[1].splitlines()
    box = None
    for item in picture.items:
        said = TEXT.match(item)
        if not said:
            box = re.match(r'<rect x="(.*?)" y=".*?" width="(.*?)"', item)
            continue
        x, y, size, words = float(said[1]), float(said[2]), int(said[3]), unescape(said[5])
        picture.claim(x, y, words, size, said[4])
        is_inside = box and said[4] == "middle" and abs(x - float(box[1]) - float(box[2]) / 2) < 0.1
        if is_inside and len(words) * LETTER[size] > float(box[2]):
            raise ValueError(f"a text leaves its box: {words}")
    return picture


def num(value):
    return f"{value:.1f}".rstrip("0").rstrip(".")
