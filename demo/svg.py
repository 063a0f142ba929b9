"""A picture as SVG, and the colours of what happened."""
from xml.sax.saxutils import escape

INK, FAINT, LINE = "#222", "#666", "#d5d5d5"
LIVE, ALONE, BACKUP = "#3d74b8", "#7d57a8", "#bcd3ec"
COMMITTED, LOST = ("#8fcf9f", "#3f9a5c"), "#d9534f"
HELD, RELEASED, ASKED = "#f2b544", "#1f7a4d", "#1795ad"


class Svg:
    def __init__(self, width, letters):
        self.parts, self.width, self.height, self.letters = [], width, 0, letters

    def add(self, text):
        self.parts.append(text)

    def rect(self, x, y, width, height, fill, more=""):
        if width > 0:
            self.add(f'<rect x="{x:.1f}" y="{y:.1f}" width="{width:.1f}" height="{height:.1f}" fill="{fill}" {more}/>')

    def line(self, x1, y1, x2, y2, colour=LINE, more=""):
        self.add(f'<line x1="{x1:.1f}" y1="{y1:.1f}" x2="{x2:.1f}" y2="{y2:.1f}" stroke="{colour}" {more}/>')

    def text(self, x, y, text, more=""):
        self.add(f'<text x="{x:.1f}" y="{y:.1f}" {more}>{escape(text)}</text>')

    def cross(self, x, y, size=4):
        for way in (size, -size):
            self.line(x - size, y - way, x + size, y + way, LOST, 'stroke-width="2"')

    def path(self, points, colour, more=""):
        self.add(f'<path d="M{" L".join(f"{x:.1f} {y:.1f}" for x, y in points)}" fill="none" stroke="{colour}" {more}/>')

    def whole(self):
        hatch = (f'<pattern id="filling" width="6" height="6" patternUnits="userSpaceOnUse" patternTransform="rotate(45)">'
                 f'<rect width="6" height="6" fill="white"/><rect width="3" height="6" fill="{BACKUP}"/></pattern>')
        return (f'<svg xmlns="http://www.w3.org/2000/svg" viewBox="0 0 {self.width} {self.height:.0f}" font-family="sans-serif" '
                f'font-size="{self.letters}" fill="{INK}">\n<defs>{hatch}</defs>\n<rect width="100%" height="100%" fill="white"/>\n'
                + "\n".join(self.parts) + "\n</svg>\n")
