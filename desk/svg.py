"""A drawing of lines, boxes and text in one width of letters, so that its room is known beforehand."""

from html import escape

FONT = "'DejaVu Sans Mono', Menlo, Consolas, 'Courier New', monospace"
LETTER = 0.61  # a letter's width, of its height
INK, PALE, RED = "#1b2430", "#5f6b7a", "#b3141e"


def width_of(text, size):
    return len(text) * size * LETTER


class Drawing:
    def __init__(self, width, title):
        self.width, self.title, self.items = width, title, []

    def add(self, name, **words):
        inside = words.pop("inside", None)
        pairs = "".join(f' {word.replace("_", "-")}="{escape(str(value))}"' for word, value in words.items())
        self.items.append(f"<{name}{pairs}/>" if inside is None else f"<{name}{pairs}>{escape(inside)}</{name}>")

    def text(self, x, y, text, size=12, **words):
        self.add("text", x=round(x, 1), y=round(y, 1), font_size=size, fill=words.pop("fill", INK), **words, inside=text)

    def box(self, x, y, width, height, **words):
        self.add("rect", x=round(x, 1), y=round(y, 1), width=round(width, 1), height=round(height, 1), **words)

    def line(self, x, y, to_x, to_y, **words):
        self.add("line", x1=round(x, 1), y1=round(y, 1), x2=round(to_x, 1), y2=round(to_y, 1), **words)

    def arrow(self, x, y, to_x, stroke):
        """A level line with its head at to_x."""
        back = 8 if to_x > x else -8
        self.line(x, y, to_x - back, y, stroke=stroke, stroke_width=2)
        self.add("path", d=f"M{to_x:.1f} {y:.1f} l{-back} -5 v10 z", fill=stroke)

    def cross(self, x, y, stroke):
        for down in (-5, 5):
            self.line(x - 5, y - down, x + 5, y + down, stroke=stroke, stroke_width=2)

    def whole(self, height):
        """The file. Its own ground is white, so that it can be read in a dark viewer too."""
        size = f'width="{self.width}" height="{height}" viewBox="0 0 {self.width} {height}"'
        head = f'<svg xmlns="http://www.w3.org/2000/svg" {size} font-family="{FONT}">'
        pattern = (
            '<defs><pattern id="over" width="4" height="4" patternUnits="userSpaceOnUse" patternTransform="rotate(45)">'
            '<rect width="4" height="4" fill="#ffffff"/><rect width="1.2" height="4" fill="#9aa4b1"/></pattern></defs>'
        )
        ground = f'<rect width="{self.width}" height="{height}" fill="#ffffff"/>'
        return "\n".join([head, f"<title>{escape(self.title)}</title>", pattern, ground, *self.items, "</svg>"]) + "\n"
