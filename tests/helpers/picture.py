"""A picture as SVG, which fits a light and a dark page."""
from xml.sax.saxutils import escape

STYLE = """
  .page { fill: #ffffff } .box { fill: #eef3fb; stroke: #5b7db1 } .part { fill: #f6f1e4; stroke: #a08a4f }
  .bad { fill: #fbeeee; stroke: #b15b5b } .line { stroke: #5f6b7a; fill: none } .head { fill: #5f6b7a }
  text { fill: #1f2933; font: 14px sans-serif } .small { font-size: 12px } .byte { font: 14px monospace }
  .name { font-weight: bold } .faint { fill: #5f6b7a }
  @media (prefers-color-scheme: dark) {
    .page { fill: #14191f } .box { fill: #1f2f47; stroke: #7fa3d9 } .part { fill: #3a3320; stroke: #c9b06a }
    .bad { fill: #452424; stroke: #d98a8a } .line { stroke: #a7b2c0 } .head { fill: #a7b2c0 }
    text { fill: #e6edf3 } .faint { fill: #a7b2c0 }
  }"""


class Picture:
    """An SVG file with a title, which says the same in words."""

    def __init__(self, width, height, title):
        self.width, self.height, self.title = width, height, title
        self.parts = []

    def box(self, x, y, width, height, kind="box"):
        self.parts.append(f'<rect class="{kind}" x="{x}" y="{y}" width="{width}" height="{height}" rx="5"/>')

    def text(self, x, y, words, kind="", anchor="start"):
        self.parts.append(f'<text class="{kind}" x="{x}" y="{y}" text-anchor="{anchor}">{escape(words)}</text>')

    def line(self, *points, arrow=True):
        path = " ".join(f"{x},{y}" for x, y in points)
        marker = ' marker-end="url(#head)"' if arrow else ""
        self.parts.append(f'<polyline class="line" points="{path}"{marker}/>')

    def svg(self):
        size = f'width="{self.width}" height="{self.height}" viewBox="0 0 {self.width} {self.height}"'
        arrow = '<marker id="head" markerWidth="9" markerHeight="8" refX="8" refY="4" orient="auto">' \
            '<path class="head" d="M0,0 L9,4 L0,8 z"/></marker>'
        return "\n".join([
            f'<svg xmlns="http://www.w3.org/2000/svg" {size} role="img">', f"<title>{escape(self.title)}</title>",
            f"<style>{STYLE}\n</style>", f"<defs>{arrow}</defs>",
            f'<rect class="page" width="{self.width}" height="{self.height}" rx="8"/>', *self.parts, "</svg>", ""])
