"""What the drawings share: replies as the replay program prints them, and an SVG of curves over ticks."""

WIDTH, LEFT, RIGHT = 760, 70, 20
FIRST_TOP, GAP = 60, 50

STYLE = """
    .sheet { fill: #ffffff } text { fill: #333333; font: 13px sans-serif } .title { font-size: 16px; font-weight: bold }
    .grid { stroke: #dddddd } .axis { stroke: #777777 } polyline { fill: none; stroke-width: 2 }%s
    %s
    @media (prefers-color-scheme: dark) {
      .sheet { fill: #16181d } text { fill: #d8d8d8 } .grid { stroke: #33363d } .axis { stroke: #8a8a8a }
      %s
    }
"""


def signed(data):
    return int.from_bytes(data, "little", signed=True)


def reply(line):
    """Place, status byte and items of a printed reply."""
    place, *printed = line.split()
    status, *items, _ = bytes.fromhex("".join(printed))
    return int(place), status, bytes(items)


def step(most):
    """A round number that goes into most some five times."""
    size = 1
    while True:
        for times in (1, 2, 5):
            if most <= 6 * times * size:
                return times * size
        size *= 10


def text(x, y, words, anchor="middle", style=""):
    return f'<text x="{x:.1f}" y="{y:.1f}" text-anchor="{anchor}"{style}>{words}</text>'


def rule(x1, y1, x2, y2, kind):
    return f'<line x1="{x1:.1f}" y1="{y1:.1f}" x2="{x2:.1f}" y2="{y2:.1f}" class="{kind}"/>'


def line_through(places, kind):
    through = " ".join(f"{x:.1f},{y:.1f}" for x, y in places)
    return f'<polyline class="{kind}" points="{through}"/>'


class Panel:
    """Room for curves over ticks, with numbers on both axes; they may go below 0, down to least."""

    def __init__(self, top, most, ticks, height=170, least=0):
        self.top, self.bottom, self.ticks = top, top + height, ticks
        self.up = step(most - least)
        self.most = -(-most // self.up) * self.up
        self.least = least // self.up * self.up
        self.scale = height / (self.most - self.least)
        self.pace = (WIDTH - RIGHT - LEFT) / ticks

    def x(self, tick):
        return LEFT + tick * self.pace

    def y(self, number):
        return self.bottom - (number - self.least) * self.scale

    def axes(self, words):
        drawn = [text(LEFT, self.top - 10, words, "start")]
        for number in range(self.least, self.most + 1, self.up):
            y = self.y(number)
            drawn.append(rule(LEFT, y, WIDTH - RIGHT, y, "grid" if number else "axis"))
            drawn.append(text(LEFT - 8, y + 4, number, "end"))
        for tick in range(0, self.ticks + 1, step(self.ticks)):
            x = self.x(tick)
            drawn.append(rule(x, self.bottom, x, self.bottom + 5, "axis"))
            drawn.append(text(x, self.bottom + 19, tick))
        return drawn

    def curve(self, kind, numbers):
        return line_through(((self.x(tick), self.y(number)) for tick, number in enumerate(numbers)), kind)


def style(light, dark, shapes=""):
    """The looks: each kind of curve has a colour in the light and in the dark scheme, and may have a shape."""

    def strokes(colours):
        return " ".join(f".{kind} {{ stroke: {colour} }}" for kind, colour in colours.items())

    return STYLE % (shapes, strokes(light), strokes(dark))


def sheet(last, title, heading, looks, drawn, foot):
    """The whole drawing, whose lowest panel is last."""
    height = last.bottom + GAP
    size = f'viewBox="0 0 {WIDTH} {height}" width="{WIDTH}" height="{height}"'
    lines = [
        f'<svg xmlns="http://www.w3.org/2000/svg" {size}>',
        f"<title>{title}</title>",
        f"<style>{looks}</style>",
        f'<rect class="sheet" width="{WIDTH}" height="{height}"/>',
        text(WIDTH / 2, 26, heading, style=' class="title"'),
        *drawn,
        text(WIDTH / 2, height - 10, foot),
        "</svg>",
    ]
    return "\n".join(lines)
