"""Draws the bounds of a run as a picture.

    ./wcspsolve solve FILE CERT --progress 2> >(python3 examples/bounds.py > bounds.svg)
    ./wcspsolve solve FILE CERT | tee report | python3 examples/bounds.py > bounds.svg

reads lines of progress, or a report, from standard input or from a file that is named, and writes an SVG: the lower and the
upper bound as steps. Lines of progress are drawn over seconds, with the nodes as a second axis. The rows of a report are drawn
in their order: a row is noted where a bound changed, so that axis counts rows and not seconds.
"""
import sys

WIDTH, HEIGHT = 640, 320
LEFT, RIGHT, TOP, BOTTOM = 84, 84, 44, 48
UPPER, LOWER, NODES = "#c0392b", "#2060a0", "#999999"
STYLE = "font-family='sans-serif' font-size='12'"


class Point:
    """Bounds at a moment: where it stands on the axis below, the lower bound, the upper one or None, nodes or None."""

    def __init__(self, x, lower, upper, nodes=None):
        self.x, self.lower, self.nodes = float(x), int(lower), nodes if nodes is None else int(nodes)
        self.upper = None if upper == "none" else int(upper)


def progress_of(words):
    """The point of a line of progress, `progress SECONDS lower L upper U nodes N open M`, or None."""
    if len(words) == 10 and words[0] == "progress" and words[2::2] == ["lower", "upper", "nodes", "open"]:
        return Point(words[1], words[3], words[5], words[7])
    return None


def read_points(lines):
    """The points that are told, and whether they are rows of a report."""
    told, rows = [], []
    for line in lines:
        for part in line.replace("\x1b[K", "").split("\r"):
            words = part.split()
            point = progress_of(words)
            if point is not None:
                told.append(point)
            elif len(words) == 3 and words[0] == "row":
                rows.append(Point(len(rows), words[1], words[2]))
    return (told, False) if told else (rows, True)


def steps_of(points):
    """The corners of a line of steps through points (x, y), those with y None left out."""
    corners, last = [], None
    for x, y in points:
        if y is None:
            continue
        if last is not None:
            corners.append((x, last))
        corners.append((x, y))
        last = y
    return corners


def ticks_of(least, most):
    """At most seven round numbers from least to most."""
    step = 1
    while (most - least) / step > 6:
        step = step * 2 if str(step)[0] in "15" else step * 5 // 2
    first = -(-least // step) * step
    return list(range(first, most + 1, step))


class Picture:
    """A picture of bounds, over rows or over seconds."""

    def __init__(self, points, are_rows):
        costs = [cost for point in points for cost in (point.lower, point.upper) if cost is not None]
        self.points, self.are_rows = points, are_rows
        self.least, self.most = min(costs), max(max(costs), min(costs) + 1)
        self.end = len(points) if are_rows else max(points[-1].x, 0.1)
        self.nodes = 0 if are_rows else max(point.nodes for point in points)

    def place(self, x, y, least=None, most=None):
        """Where a place on the axis below and a cost, or a number from `least` to `most`, stand in pixels."""
        least, most = self.least if least is None else least, self.most if most is None else most
        across = (WIDTH - LEFT - RIGHT) * x / self.end
        up = (HEIGHT - TOP - BOTTOM) * (y - least) / (most - least)
        return LEFT + across, HEIGHT - BOTTOM - up

    def polyline(self, places, colour, width):
        text = " ".join("%.1f,%.1f" % place for place in places)
        return f"<polyline points='{text}' fill='none' stroke='{colour}' stroke-width='{width}'/>" if text else ""

    def bound_line(self, bound_of, colour):
        corners = [(point.x, bound_of(point)) for point in self.points]
        corners.append((self.end, bound_of(self.points[-1])))
        return self.polyline([self.place(x, y) for x, y in steps_of(corners)], colour, 2)

    def node_line(self):
        if self.nodes == 0:
            return ""
        places = [self.place(point.x, point.nodes, 0, self.nodes) for point in self.points]
        return self.polyline(places, NODES, 1)

    def title(self):
        last = self.points[-1]
        if last.upper is None:
            return f"lower bound {last.lower}, no assignment yet"
        return f"lower bound {last.lower}, upper bound {last.upper}, gap {last.upper - last.lower}"

    def cost_axis(self):
        yield f"<path d='M{LEFT} {TOP}V{HEIGHT - BOTTOM}H{WIDTH - RIGHT}' fill='none' stroke='black'/>"
        for cost in ticks_of(self.least, self.most):
            _, y = self.place(0, cost)
            yield f"<path d='M{LEFT - 4} {y:.1f}H{LEFT}' stroke='black'/>"
            yield f"<text x='{LEFT - 8}' y='{y + 4:.1f}' text-anchor='end' {STYLE}>{cost}</text>"
        yield f"<text x='16' y='{TOP - 12}' {STYLE}>cost</text>"

    def axis_below(self):
        bottom = HEIGHT - BOTTOM
        scale = 1 if self.end >= 4 else 10
        for tick in ticks_of(0, int(self.end * scale)):
            x, _ = self.place(tick / scale, self.least)
            yield f"<path d='M{x:.1f} {bottom}V{bottom + 4}' stroke='black'/>"
            yield f"<text x='{x:.1f}' y='{bottom + 18}' text-anchor='middle' {STYLE}>{tick / scale:g}</text>"
        name = "row of the report" if self.are_rows else "seconds"
        yield f"<text x='{(LEFT + WIDTH - RIGHT) / 2}' y='{HEIGHT - 10}' text-anchor='middle' {STYLE}>{name}</text>"

    def node_axis(self):
        if self.nodes == 0:
            return
        right = WIDTH - RIGHT
        yield f"<path d='M{right} {TOP}V{HEIGHT - BOTTOM}' stroke='{NODES}'/>"
        for nodes in ticks_of(0, self.nodes):
            _, y = self.place(0, nodes, 0, self.nodes)
            yield f"<path d='M{right} {y:.1f}H{right + 4}' stroke='{NODES}'/>"
            yield f"<text x='{right + 8}' y='{y + 4:.1f}' fill='{NODES}' {STYLE}>{nodes}</text>"
        yield f"<text x='{WIDTH - 16}' y='{TOP - 12}' text-anchor='end' fill='{NODES}' {STYLE}>nodes</text>"

    def names(self):
        for x, name, colour in ((WIDTH / 2 - 6, "upper bound", UPPER), (WIDTH / 2 + 90, "lower bound", LOWER)):
            yield f"<text x='{x}' y='{TOP - 12}' text-anchor='end' fill='{colour}' {STYLE}>{name}</text>"

    def text(self):
        yield f"<svg xmlns='http://www.w3.org/2000/svg' width='{WIDTH}' height='{HEIGHT}' viewBox='0 0 {WIDTH} {HEIGHT}'>"
        yield f"<rect width='{WIDTH}' height='{HEIGHT}' fill='white'/>"
        yield f"<text x='{WIDTH / 2}' y='20' text-anchor='middle' font-family='sans-serif' font-size='14'>{self.title()}</text>"
        yield from self.cost_axis()
        yield from self.axis_below()
        yield from self.node_axis()
        yield from self.names()
        yield self.node_line()
        yield self.bound_line(lambda point: point.upper, UPPER)
        yield self.bound_line(lambda point: point.lower, LOWER)
        yield "</svg>"


def main(words):
    if len(words) > 1:
        sys.exit(__doc__)
    if words:
        with open(words[0], encoding="utf-8", errors="replace") as file:
            points, are_rows = read_points(file)
    else:
        points, are_rows = read_points(sys.stdin)
    if not points:
        sys.exit("bounds.py: neither lines of progress nor rows of a report")
    print("\n".join(line for line in Picture(points, are_rows).text() if line))


if __name__ == "__main__":
    main(sys.argv[1:])
