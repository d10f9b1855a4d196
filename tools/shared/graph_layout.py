"""Places the parts of an execution's picture: the box of each event, and the way and the label of each edge. No edge crosses a box: between
neighbouring threads it goes through the gutter, past a thread in a lane after a row of boxes, and within a thread around its side.
web/graph_layout.js does the same, number by number.

Threads are columns, close together if the picture would be wide otherwise, so that it fits beside a text. If three or four do not fit there, they are
rows, and the picture is turned, if that makes it much narrower. Places are found along two axes, `across` the threads and `along` program order, and turned at the end.
"""
from __future__ import annotations

import math
from typing import NamedTuple, Sequence, Tuple

from executions import Edge, Event, Execution
from picture import EDGE, LETTER, LINE

BOX = 24  # the height of an event's box
BASE = 16  # from the top of a box to the base of its text
LANE = 11  # from one lane to the next, if there is room
STUB = 24  # the length of an arrow from the initial word
OUTER = 16  # at the edge
FREE_ENDS = 4  # the number of ends that find room in a gutter
MAX_ENDS = 8
LABEL = 16  # the height of a label
APART = 8  # from one label to the next beside it
HEAD = 5  # how far the head of an arrow reaches from its end
CLEAR = 1  # from a label to an arrow of another edge
PARTS = 24  # the number of parts of a curve, whose ends are checked
NARROWER = 0.85  # a picture is turned if that makes it narrower by this factor
WIDE_GUTTER = 60  # between two threads that are close together
MAX_UPRIGHT = 390  # how wide a picture of two threads may be that has the most room
MAX_NARROW = 500  # how wide a picture of more threads may be that is not turned
# The places of an edge's label along its way, and its distances beside it, in widths of the label and in pixels below: the best first.
PLACES = (0.24, 0.34, 0.16, 0.46, 0.58, 0.7, 0.8, 0.88, 0.1, 0.94, 0.05)
ON, BESIDE, FAR = ((0, 0), (0, -12), (0, 12)), ((0.7, 0), (-0.7, 0)), ((0, -18), (0, 18))
SHORT = 50  # the label of an arrow that is shorter is beside it


class Room(NamedTuple):
    """The free space at a side with ends, between threads, there for each further end, between the events of a thread, after the last event,
    and beside the text of an event.
    """

    side: int
    gutter: int
    more: int
    gap: int
    end: int
    beside: int


# Of a picture with the most room, of one whose threads are close together, and of one that is turned.
UPRIGHT, NARROW, TURNED = Room(48, 84, 12, 28, 14, 9), Room(44, 40, 8, 28, 14, 6), Room(32, 34, 12, 42, 26, 9)


# A place in the picture, or one along its two axes.
Point = Tuple[float, float]
# The four points of a cubic curve: its start, two that direct it, and its end.
Curve = Sequence[Point]
# A box: its left edge, its top, its width and its height.
Box = Tuple[float, float, float, float]


class Route:
    """The way of an edge: `next` to the next event, `around` a thread's side, `across` a gutter, by a `lane`; or the `start` of a read.

    A route in a lane is after the row `gap`. One around a side spans `rows` rows, and has `beside` earlier ones next to it. `sides` are the
    sides of its events at which it ends (0 is that of the thread before, 1 that of the thread after), and `ports` the places on them.
    """

    def __init__(self, edge: Edge | None, number: int, way: str, source: Event, target: Event) -> None:
        """Makes the route of an edge, or of an arrow from an initial word if the edge is `None`."""
        self.edge, self.number, self.way, self.source, self.target = edge, number, way, source, target
        self.gap = self.rows = self.beside = 0
        self.sides = (0, 0)
        self.ports: list[float] = [0, 0]


def find_curve_point(curve: Curve, part: float) -> Point:
    """Returns the point of a cubic curve after a part of its way, from 0 to 1."""
    a, b, c, d = curve
    rest = 1 - part
    on = lambda i: rest * rest * rest * a[i] + 3 * rest * rest * part * b[i] + 3 * rest * part * part * c[i] + part * part * part * d[i]
    return on(0), on(1)


def make_line(begin: Point, end: Point) -> Curve:
    """Returns a straight line, as a curve."""
    third = lambda part: (begin[0] + (end[0] - begin[0]) * part, begin[1] + (end[1] - begin[1]) * part)
    return begin, third(1 / 3), third(2 / 3), end


def make_swing(begin: Point, end: Point) -> Curve:
    """Returns a curve that leaves and arrives across the threads."""
    half = (end[0] - begin[0]) / 2
    return begin, (begin[0] + half, begin[1]), (end[0] - half, end[1]), end


def make_side_curve(begin: Point, end: Point, route: Route, max_distance: float) -> Curve:
    """Returns a curve out of a side and back to it, whose points are at most `max_distance` away from it."""
    out = min(20 + 8 * route.rows + 12 * route.beside, max_distance) * (1 if route.sides[0] else -1)
    return begin, (begin[0] + out, begin[1]), (end[0] + out, end[1]), end


def do_overlap(first: Box, second: Box) -> bool:
    """Returns whether two boxes overlap."""
    (x, y, width, height), (left, top, wide, high) = first, second
    return x < left + wide and left < x + width and y < top + high and top < y + height


class GraphLayout:
    """The layout of a picture: the boxes of events, the routes of edges (`routes`) and of arrows from initial words (`starts`), and the places of
    labels.
    """

    def __init__(self, execution: Execution, texts: dict[Event, str], edges: Sequence[Edge], initial: Sequence[Event]) -> None:
        """Lays the picture of an execution out: upright, or if it has many threads and is wide, turned if that is much narrower. `texts` are those of
        the events, `edges` what is drawn, `initial` the reads of the initial word.
        """
        events = execution.list_events()
        self.threads = [[it for it in events if it.thread == thread] for thread in range(len(execution.paths))]
        self.rows = {event: row for thread in self.threads for row, event in enumerate(thread)}
        self.max_events = max([len(it) for it in self.threads] + [1])
        self.letters = max([len(texts[it]) for it in events] + [4])
        # The ends of routes at each side of an event: the route, and 0 for its source or 1 for its target.
        self.ends: dict[tuple[Event, int], list[tuple[Route, int]]] = {}
        self.lanes: dict[int, list[Route]] = {}  # by the row that they follow
        self.pairs: dict[tuple[Event, ...], int] = {}  # of two events, the number of earlier edges around a side between them
        self.routes = [self.make_route(edge, number) for number, edge in enumerate(edges)]
        self.starts = [self.make_start_route(event, len(edges) + number) for number, event in enumerate(initial)]
        self.place_threads(UPRIGHT)
        if len(self.threads) > 2 or self.size[0] > MAX_UPRIGHT:
            self.place_threads_closely(self.size[0])
        self.sort_ends()
        self.taken = [(*self.find_corner(it), *self.box) for it in events] + [self.make_title_box(thread) for thread in range(len(self.threads))]
        # For each route, by its number, points along its arrow.
        self.arrow_points = {it.number: self.sample_arrow(it) for it in [*self.routes, *self.starts]}

    # Which way an edge goes.

    def make_route(self, edge: Edge, number: int) -> Route:
        """Returns the route of an edge; `number` distinguishes it from all other routes."""
        start, end = edge.source.thread, edge.target.thread
        rows = self.rows[edge.target] - self.rows[edge.source]
        route = Route(edge, number, "across", edge.source, edge.target)
        if start == end:
            is_next = edge.kind == "po" and rows == 1
            route.way, route.rows = "next" if is_next else "around", abs(rows)
            route.beside = self.count_routes_of_pair(edge.source, edge.target)
            side = 0 if edge.kind == "po" else 1
            return route if is_next else self.record_ends(route, side, side)
        if abs(start - end) > 1:
            route.way = "lane"
            route.gap = min(self.rows[edge.source], self.rows[edge.target]) + 1
            self.lanes.setdefault(route.gap, []).append(route)
        return self.record_ends(route, 1, 0) if start < end else self.record_ends(route, 0, 1)

    def count_routes_of_pair(self, *events: Event) -> int:
        """Counts one more route around a side between two events. Returns how many there were before it."""
        key = tuple(sorted(events))
        self.pairs[key] = self.pairs.get(key, -1) + 1
        return self.pairs[key]

    def record_ends(self, route: Route, source_side: int, target_side: int) -> Route:
        """Records at which sides of its events a route ends: 0 is that of the thread before, 1 that of the thread after. Returns the route."""
        route.sides = source_side, target_side
        self.ends.setdefault((route.source, source_side), []).append((route, 0))
        self.ends.setdefault((route.target, target_side), []).append((route, 1))
        return route

    def make_start_route(self, event: Event, number: int) -> Route:
        """Returns the arrow from the initial word to a read."""
        route = Route(None, number, "start", event, event)
        self.ends.setdefault((event, 0), []).append((route, 1))
        return route

    # The places of the threads.

    def place_threads_closely(self, upright: float) -> None:
        """Places the threads close together, or turned, if a picture with the most room, which is `upright` pixels wide, is too wide."""
        max_lanes = max([0, *map(len, self.lanes.values())])
        gutter = WIDE_GUTTER if len(self.threads) < 3 else NARROW.gutter
        self.place_threads(NARROW._replace(gutter=gutter, gap=max(NARROW.gap, 16 + LANE * max_lanes)))
        if self.size[0] > MAX_NARROW:
            self.place_threads(TURNED)
            if len(self.threads) < 3 or self.size[0] > NARROWER * upright:
                self.place_threads(UPRIGHT)

    def place_threads(self, room: Room) -> None:
        """Places the threads with some room between and around their events, and sets the size of the picture."""
        self.room, self.is_turned = room, room is TURNED
        self.box = self.letters * LETTER + 2 * room.beside, BOX
        self.wide, self.deep = (self.box[1], self.box[0]) if self.is_turned else self.box
        self.pitch = self.deep + self.room.gap
        self.begin = EDGE + 3 * LETTER + OUTER if self.is_turned else EDGE + LINE + 6
        counts = [0] * (len(self.threads) + 1)
        for (event, side), ends in self.ends.items():
            counts[event.thread + side] += len(ends)
        self.lefts: list[float] = []
        across: float = self.room.side if counts[0] else OUTER
        for thread in range(len(self.threads)):
            self.lefts.append(across)
            number = counts[thread + 1]
            gutter = self.room.gutter + self.room.more * max(0, min(number, MAX_ENDS) - FREE_ENDS)
            last = self.room.side if number else OUTER
            across += self.wide + (last if thread == len(self.threads) - 1 else gutter)
        lanes_after = len(self.lanes.get(self.max_events, ())) * LANE
        along = self.begin + (self.max_events - 1) * self.pitch + self.deep + (lanes_after + 14 if lanes_after else self.room.end)
        self.size = self.to_picture((across, along))

    def to_picture(self, point: Point) -> Point:
        """Returns a point of the two axes, as the picture has it."""
        return (point[1], point[0]) if self.is_turned else point

    def find_spot(self, event: Event) -> Point:
        """Returns the start of an event's box, along the two axes."""
        return self.lefts[event.thread], self.begin + self.rows[event] * self.pitch

    def find_corner(self, event: Event) -> Point:
        """Returns the corner of the box of an event."""
        return self.to_picture(self.find_spot(event))

    def find_title(self, thread: int) -> Point:
        """Returns the point at which the name of a thread starts, on its base line."""
        return (EDGE, self.lefts[thread] + BASE) if self.is_turned else (self.lefts[thread], EDGE + LINE - 4)

    def make_title_box(self, thread: int) -> Box:
        """Returns the box of the name of a thread."""
        x, y = self.find_title(thread)
        return x, y - LABEL, 3 * LETTER, LABEL + 4

    def find_lane(self, route: Route) -> float:
        """Returns where along program order the lane of a route is."""
        lanes = self.lanes[route.gap]
        middle = self.begin + route.gap * self.pitch - (self.pitch - self.deep) / 2
        return middle + (lanes.index(route) - (len(lanes) - 1) / 2) * min(LANE, (self.room.gap - 10) / len(lanes))

    # Where on the side of its box an edge ends.

    def sort_ends(self) -> None:
        """Sets the ports of all routes: at each side of a box the ends are evenly apart, in the order of the routes' other ends."""
        middle = lambda event: self.find_spot(event)[1] + self.deep / 2

        def sort_key(item: tuple[Route, int]) -> tuple[float, int]:
            """Returns where the route's other end is along program order (its lane, if it has one), and its number, for ties."""
            route, end = item
            position = self.find_lane(route) if route.way == "lane" else middle(route.source if end else route.target)
            return position, route.number

        for (event, _), ends in self.ends.items():
            first = self.find_spot(event)[1]
            for index, (route, end) in enumerate(sorted(ends, key=sort_key)):
                route.ports[end] = first + (self.deep * (index + 1)) / (len(ends) + 1)

    def find_ends(self, route: Route) -> tuple[Point, Point]:
        """Returns the two ends of a route, along the two axes."""
        edge_of = lambda event, side: self.lefts[event.thread] + (self.wide + 2 if side else -2)
        return (edge_of(route.source, route.sides[0]), route.ports[0]), (edge_of(route.target, route.sides[1]), route.ports[1])

    # The ways themselves: cubic curves, with straight lines between them.

    def make_picture_curves(self, route: Route) -> list[Curve]:
        """Returns the curves of a route, as the picture has them."""
        return [tuple(self.to_picture(point) for point in curve) for curve in self.make_curves(route)]

    def make_curves(self, route: Route) -> list[Curve]:
        """Returns the curves of a route, along the two axes."""
        across, along = self.find_spot(route.source)
        if route.way == "next":
            middle = across + self.wide / 2
            return [make_line((middle, along + self.deep + 2), (middle, self.find_spot(route.target)[1] - 2))]
        if route.way == "start":
            return [make_line((across - STUB, route.ports[1]), (across - 2, route.ports[1]))]
        begin, end = self.find_ends(route)
        if route.way == "around":
            return [make_side_curve(begin, end, route, self.room.side + 10)]
        return [make_swing(begin, end)] if route.way == "across" else self.make_lane_curves(begin, end, self.find_lane(route))

    def make_lane_curves(self, begin: Point, end: Point, lane: float) -> list[Curve]:
        """Returns the way into a lane, along it, and out of it."""
        reach = 0.8 * self.room.gutter * (1 if begin[0] < end[0] else -1)
        enter, leave = (begin[0] + reach, lane), (end[0] - reach, lane)
        return [make_swing(begin, enter), make_line(enter, leave), make_swing(leave, end)]

    # The labels.

    def place_label(self, route: Route, letters: int) -> Point:
        """Returns the middle of a label of `letters` letters, near its edge: inside the picture, over no box and no other label, and over no arrow of
        another edge, if there is such a place. Records its box, so that later labels stay off it.
        """
        width = letters * LETTER + APART
        spots = self.list_label_spots(route, width)
        box = lambda spot: (spot[0] - width / 2, spot[1] - LABEL / 2, width, LABEL)
        free = [it for it in spots if self.is_free(box(it))] or spots[:1]
        spot = min(free, key=lambda it: self.count_crossed_arrows(box(it), route))
        self.taken.append(box(spot))
        return spot

    def is_free(self, box: Box) -> bool:
        """Returns whether a box is inside the picture, and over no event's box, no thread's name and no label."""
        x, y, width, height = box
        is_inside = x >= 0 and x + width <= self.size[0] and y >= 0 and y + height <= self.size[1]
        return is_inside and not any(do_overlap(box, it) for it in self.taken)

    def count_crossed_arrows(self, box: Box, route: Route) -> int:
        """Counts the arrows that pass below the box of a route's label: those of other routes, and its own if the head of that is there."""
        x, y, width, height = box
        is_in = lambda point: x - CLEAR < point[0] < x + width + CLEAR and y - CLEAR < point[1] < y + height + CLEAR
        others = sum(any(map(is_in, points)) for number, points in self.arrow_points.items() if number != route.number)
        end = self.arrow_points[route.number][-1]
        return others + do_overlap(box, (end[0] - HEAD, end[1] - HEAD, 2 * HEAD, 2 * HEAD))

    def sample_arrow(self, route: Route) -> list[Point]:
        """Returns points along the arrow of a route, its end last."""
        return [find_curve_point(curve, part / PARTS) for curve in self.make_picture_curves(route) for part in range(PARTS + 1)]

    def list_label_spots(self, route: Route, width: float) -> list[Point]:
        """Returns the possible places of a label: at a part of its edge, or beside a straight arrow."""
        curves = self.make_picture_curves(route)
        x, y = curves[0][0]
        if route.way == "start":
            return self.list_start_label_spots(route, x, y, width)
        right, down = (0, 0) if route.way != "next" else (0, -LABEL / 2 - HEAD) if self.is_turned else (width / 2 + HEAD, 0)
        points = [find_curve_point(curve, part) for curve in curves for part in PLACES]
        is_short = math.dist(curves[0][0], curves[-1][-1]) < SHORT and route.way != "next"
        offsets = (BESIDE + ON if is_short else ON + BESIDE) + FAR
        return [(left + right + beside * width, top + down + below) for beside, below in offsets for left, top in points]

    def list_start_label_spots(self, route: Route, x: float, y: float, width: float) -> list[Point]:
        """Returns the possible places of the label of an arrow from an initial word: first on that side of it on which no other arrow ends."""
        is_last = route.ports[1] > self.find_spot(route.source)[1] + self.deep / 2
        sideways, downwards = width / 2 + 4, 11
        spots = [(x + 4, y - downwards), (x + 4, y + downwards), (x - 8, y - downwards), (x - 8, y + downwards), (x - width / 2, y)]
        if self.is_turned:
            spots = [(x - sideways, y + 6), (x + sideways, y + 6), (x, y - 8)]
        return [spots[1], spots[0], *spots[2:]] if is_last else spots
