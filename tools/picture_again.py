#!/usr/bin/env python3
"""Draws the picture of a laboratory a second time, from its input and its timeline, and compares it with what graftlab draws.

    picture_again.py PROGRAM LAB..
    picture_again.py --draw LAB TIMELINE

PROGRAM is graftlab; each LAB is run by one worker, once for its picture and once for its timeline, which are the same run then. The lines of
both are the same, in another order where the clock of a router ran behind. Prints a line for each LAB, and those in which the two differ; ends
with status 1 where there are some. With --draw it writes the picture of a laboratory by the text of its timeline.
"""
import collections
import re
import subprocess
import sys
import tomllib
from html import escape

STYLE = """text{font:11px DejaVu Sans,Verdana,sans-serif;fill:#333}path{fill:none}.p{fill:#fff}.e{fill:#f0f2f5}
.h{font-size:18px;font-weight:bold}.r{font-size:12px;font-weight:bold}.n{font-size:10px;text-anchor:end}
.l{font-size:10px;fill:#666}.a{font-size:10px;fill:#666;text-anchor:middle}.g{font-size:9px}
.r,.n,.g{paint-order:stroke;stroke:#f0f2f5;stroke-width:3px}
.s{stroke-width:3px;stroke-linecap:round}.d{stroke-width:7px;stroke-linecap:round}
.w{stroke-width:2px;stroke-dasharray:5 3}.k{stroke-width:1px;stroke-dasharray:2 3}
.x{stroke:#000;stroke-width:2px}.o{stroke:#d4d9e0}.b{stroke:#999;stroke-width:2px}
.c0{stroke:#332288}.c1{stroke:#cc6677}.c2{stroke:#44aa99}.c3{stroke:#882255}
.c4{stroke:#88ccee}.c5{stroke:#117733}.c6{stroke:#aa4499}
"""
LEGEND = """<path class='s c0' d='M16 78h32'/><text x='56' y='82'>at a router</text>
<path class='w c0' d='M144 84C160 84 160 72 176 72'/><text x='184' y='82'>on its way</text>
<path class='k c0' d='M272 78h32'/><text x='312' y='82'>its place kept at the source</text>
<path class='d c0' d='M500 78h0'/><text class='g' x='507' y='76'>7</text><text x='520' y='82'>landed by graft 7</text>
<path class='x' d='M639 73l10 10m0 -10l-10 10'/><text x='656' y='82'>refused</text>
<path class='b' d='M728 70v16'/><text x='736' y='82'>a group of the script begins</text>
"""
# What stands in the line of a change, which name of it is the peering, and where within its round it stands, in eighths.
CHANGES = [
    (r"sent (\S+) to ", "left", 1),
    (r"refused (\S+) to ", "refused", 1),
    (r"landed (\S+) from ", "landed", 5),
    (r"turned back (\S+) to ", "turned", 5),
    (r"took back (\S+) from ", "back", 7),
    (r"cleared (\S+)", "cleared", 7),
]
EIGHTHS = {name: eighths for _, name, eighths in CHANGES}
GRAFT = re.compile(r"graft (\d+) (\S+) (\S+) (\S+) (waiting|open|accepted|refused .*)")


class Picture:
    def __init__(self, lab, timeline):
        self.routers = [router["name"] for router in lab["router"]]
        self.peerings = [peering["name"] for peering in lab["peering"]]
        self.at = [self.routers.index(peering["at"]) for peering in lab["peering"]]
        self.lines = timeline.splitlines()
        self.grafts, self.points, self.starts, self.last = {}, [], [(0, 1)], 0
        self.read()
        self.shown = sorted({0, self.last} | {point[0] for point in self.points} | {start[0] for start in self.starts})
        self.eighth = max(8, min(20, 160 // len(self.shown)))
        self.lanes = [[p for p in range(len(self.peerings)) if self.comes_to(r, p)] for r in range(len(self.routers))]
        self.parts = []

    def read(self):
        ordered = {}
        for line in self.lines:
            graft = GRAFT.fullmatch(line)
            if graft:
                source = self.routers.index(graft[3]) if graft[3] != "-" else None
                self.grafts[int(graft[1])] = (self.peerings.index(graft[2]), source, self.routers.index(graft[4]), line)
            event = re.match(r"round (\d+)  (\S+)(?:  | -> | <- )(.*)", line)
            if not event:
                continue
            round_number, what = int(event[1]), event[3]
            self.last = max(self.last, round_number)
            order = re.match(r"ordered graft (\d+) (\S+) ", what)
            if order:
                ordered[order[2]] = int(order[1])
            group = re.match(r"began group (\d+)", what)
            if group:
                self.starts.append((round_number, int(group[1])))
            for pattern, change, _ in CHANGES:
                found = re.match(pattern, what)
                if found:
                    self.points.append((round_number, change, ordered[found[1]]))

    # ---- positions

    def comes_to(self, router, peering):
        return self.at[peering] == router or any(
            change == "left" and self.grafts[graft][0] == peering and self.grafts[graft][2] == router for _, change, graft in self.points
        )

    def column_x(self, number):
        return 128 * (number // 16 + 1) + 8 * self.eighth * number

    def round_x(self, round_number):
        return self.column_x(sum(other < round_number for other in self.shown))

    def point_x(self, point):
        return self.round_x(point[0]) + self.eighth * EIGHTHS[point[1]]

    def end_x(self):
        return self.column_x(len(self.shown) - 1) + 8 * self.eighth

    def graft_x(self, changes, graft):
        return next((self.point_x(point) for point in self.points if point[1] in changes and point[2] == graft), self.end_x())

    def next_leave_x(self, peering, after):
        leaves = (point for point in self.points if point[1] == "left" and self.grafts[point[2]][0] == peering and point[0] > after)
        return next(map(self.point_x, leaves), self.end_x())

    def lane_y(self, router):
        return 136 + sum(16 * len(lane) + 32 for lane in self.lanes[:router])

    def bottom_y(self):
        return self.lane_y(len(self.lanes))

    def row_y(self, router, peering):
        return self.lane_y(router) + 32 + 16 * sum(other < peering for other in self.lanes[router])

    # ---- elements

    def text(self, kind, x, y, words):
        self.parts.append(f"<text class='{kind}' x='{x}' y='{y}'>{escape(str(words)).replace('&#x27;', '&#39;')}</text>\n")

    def path(self, kind, way, title=None):
        end = "'/>" if title is None else f"'><title>{escape(title)}</title></path>"
        self.parts.append(f"<path class='{kind}' d='{way}{end}\n")

    def graft_title(self, graft):
        peering, source, target, _ = self.grafts[graft]
        return f"graft {graft} of {self.peerings[peering]} from {self.routers[source]} to {self.routers[target]}"

    def stay(self, router, peering, round_number, x):
        way = f"M{x} {self.row_y(router, peering)}H{self.next_leave_x(peering, round_number)}"
        self.path(f"s c{peering % 7}", way, f"{self.peerings[peering]} at {self.routers[router]}")

    def bow(self, graft, x, source, to_x, target):
        peering = self.grafts[graft][0]
        y, to_y, middle = self.row_y(source, peering), self.row_y(target, peering), (x + to_x) // 2
        self.path(f"w c{peering % 7}", f"M{x} {y}C{middle} {y} {middle} {to_y} {to_x} {to_y}", self.graft_title(graft))

    def number(self, x, y, graft):
        self.text("g", x + 7, y - 4, graft)

    # ---- the whole

    def head(self, refused):
        width, height = max(960, self.end_x() + 24), self.bottom_y() + 40 + 16 * len(refused)
        title = f"Sessions and grafts: {self.lines[0]}\n"
        self.parts.append(f"<svg xmlns='http://www.w3.org/2000/svg' width='{width}' height='{height}' viewBox='0 0 {width} {height}'>\n")
        self.parts.append(f"<title>{title}</title>\n<style>{STYLE}</style>\n<rect class='p' width='{width}' height='{height}'/>\n")
        self.text("h", 16, 30, title)
        counts = len(self.routers), len(self.peerings), len(self.grafts), self.last
        self.text("t", 16, 50, "routers {}, peerings {}, grafts {}, rounds {}".format(*counts))
        self.parts.append(LEGEND)

    def axes(self):
        for router, lane in enumerate(self.lanes):
            size = f"width='{self.end_x() - 8}' height='{16 * len(lane) + 28}'"
            self.parts.append(f"<rect class='e' x='8' y='{self.lane_y(router)}' {size} rx='4'/>\n")
        bottom = self.bottom_y()
        self.text("l", 16, 112, "group")
        self.text("l", 16, 128, "round")
        self.text("l", 16, bottom + 12, "round")
        for round_number in self.shown:
            x = self.round_x(round_number)
            self.path("o", f"M{x} 132V{bottom}")
            self.text("a", x + 4 * self.eighth, 128, round_number)
            self.text("a", x + 4 * self.eighth, bottom + 12, round_number)
        for round_number, group in self.starts:
            self.path("b", f"M{self.round_x(round_number)} 116V{bottom}")
            self.text("a", self.round_x(round_number), 112, group)

    def kept(self, point, peering, source, target):
        if point[1] == "left":
            end = self.graft_x(("back", "cleared"), point[2])
            self.path(f"k c{peering % 7}", f"M{self.point_x(point)} {self.row_y(source, peering)}H{end}")

    def ways(self, point, peering, source, target):
        if point[1] == "left":
            self.bow(point[2], self.point_x(point), source, self.graft_x(("landed", "turned"), point[2]), target)
        if point[1] == "turned":
            self.bow(point[2], self.point_x(point), target, self.graft_x(("back",), point[2]), source)

    def stays(self, point, peering, source, target):
        if point[1] in ("landed", "back"):
            self.stay(target if point[1] == "landed" else source, peering, point[0], self.point_x(point))

    def marks(self, point, peering, source, target):
        x, y = self.point_x(point), self.row_y(source if point[1] == "refused" else target, peering)
        if point[1] == "landed":
            self.path(f"d c{peering % 7}", f"M{x} {y}h0")
            self.number(x, y, point[2])
        if point[1] in ("turned", "refused"):
            self.path("x", f"M{x - 5} {y - 5}l10 10m0 -10l-10 10", self.graft_title(point[2]))
            self.number(x, y, point[2])

    def each(self, draw):
        for point in self.points:
            draw(point, *self.grafts[point[2]][:3])

    def names(self):
        for sixteen in range((len(self.shown) - 1) // 16 + 1):
            x = self.column_x(16 * sixteen)
            for router, lane in enumerate(self.lanes):
                self.text("r", x - 112, self.lane_y(router) + 17, self.routers[router])
                for peering in lane:
                    self.text("n", x - 8, self.row_y(router, peering) + 4, self.peerings[peering])

    def draw(self):
        refused = [graft[3] for graft in self.grafts.values() if " refused " in graft[3]]
        self.head(refused)
        self.axes()
        self.each(self.kept)
        self.each(self.ways)
        for peering, router in enumerate(self.at):
            self.stay(router, peering, 0, self.round_x(0))
        self.each(self.stays)
        self.each(self.marks)
        self.names()
        for number, line in enumerate(refused):
            self.text("t", 16, self.bottom_y() + 36 + 16 * number, line + "\n")
        return "".join(self.parts) + "</svg>\n"


def run(program, job, lab):
    with open(lab, "rb") as source:
        return subprocess.run([program, job, "--workers", "1"], stdin=source, capture_output=True).stdout.decode()


def main():
    if len(sys.argv) < 3:
        sys.exit(__doc__)
    if sys.argv[1] == "--draw":
        with open(sys.argv[2], "rb") as lab, open(sys.argv[3]) as timeline:
            sys.stdout.write(Picture(tomllib.load(lab), timeline.read()).draw())
        return
    program, wrong = sys.argv[1], 0
    for name in sys.argv[2:]:
        with open(name, "rb") as lab:
            again = Picture(tomllib.load(lab), run(program, "timeline", name)).draw()
        first = run(program, "picture", name)
        drawn, expected = (collections.Counter(text.splitlines()) for text in (first, again))
        print(f"{name}: {len(first)} octets, {(drawn - expected).total()} and {(expected - drawn).total()} lines that the other hasn't")
        for line in [*(drawn - expected), *(expected - drawn)]:
            print(f"  {line}")
        wrong += drawn != expected
    sys.exit(1 if wrong else 0)


if __name__ == "__main__":
    main()
