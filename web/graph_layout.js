// Places the parts of an execution's picture: the box of each event, and the way and the label of each edge. No edge crosses a box: between
// neighbouring threads it goes through the gutter, past a thread in a lane after a row of boxes, and within a thread around its side.
// tools/shared/graph_layout.py does the same, number by number.
//
// Threads are columns, close together if the picture would be wide otherwise, so that it fits beside a text. If three or four do not fit there, they are
// rows, and the picture is turned, if that makes it much narrower. Places are found along two axes, `across` the threads and `along` program order, and
// turned at the end.
//
// A route has its `edge`, its `number` among all, and the `way` of the edge: `next` to the next event, `around` a thread's side, `across` a gutter, by a
// `lane`; or the `start` of a read. A route in a lane is after the row `gap`. One around a side spans `rows` rows, and has `beside` earlier ones next to
// it. `sides` are the sides of its events at which it ends (0 is that of the thread before, 1 that of the thread after), and `ports` the places on them.

import { findThread } from "./executions.js";
import { EDGE, LETTER, LINE } from "./pictures.js";

// The height of an event's box.
const BOX = 24;
// From the top of a box to the base of its text.
export const BASE = 16;
// From one lane to the next, if there is room.
const LANE = 11;
// The length of an arrow from the initial word.
const STUB = 24;
// The room at the edge.
const OUTER = 16;
// The room at a side with ends, between threads, there for each further end, between events, after the last, and beside the text of an event: of a
// picture with the most room, of one whose threads are close together, and of one that is turned.
const UPRIGHT = { side: 48, gutter: 84, more: 12, gap: 28, end: 14, beside: 9 };
const NARROW = { side: 44, gutter: 40, more: 8, gap: 28, end: 14, beside: 6 };
const TURNED = { side: 32, gutter: 34, more: 12, gap: 42, end: 26, beside: 9 };
// The room between two threads that are close together.
const WIDE_GUTTER = 60;
// How wide a picture of two threads may be that has the most room, and one of more threads that is not turned.
const [MAX_UPRIGHT, MAX_NARROW] = [390, 500];
// How many ends have room in a gutter, and at how many it has its full width.
const FREE_ENDS = 4;
const MAX_ENDS = 8;
// The height of a label.
const LABEL = 16;
// From one label to the next beside it.
const APART = 8;
// How far the head of an arrow reaches from its end.
const HEAD = 5;
// From a label to an arrow of another edge.
const CLEAR = 1;
// The number of parts of a curve, at whose ends it is looked at.
const PARTS = 24;
// A picture is turned if that makes it narrower by this factor.
const NARROWER = 0.85;
// Where along its way the label of an edge may be, and how far beside it, in widths of the label and in pixels below: the best first.
const PLACES = [0.24, 0.34, 0.16, 0.46, 0.58, 0.7, 0.8, 0.88, 0.1, 0.94, 0.05];
const [ON, BESIDE, FAR] = [[[0, 0], [0, -12], [0, 12]], [[0.7, 0], [-0.7, 0]], [[0, -18], [0, 18]]];
// The label of a shorter arrow is beside it.
const SHORT = 50;

/** Returns the point of a cubic curve after a part of its way, from 0 to 1. */
function findCurvePoint([a, b, c, d], part) {
  const other = 1 - part;
  const findCoordinate = (axis) =>
    other * other * other * a[axis] + 3 * other * other * part * b[axis] + 3 * other * part * part * c[axis] + part * part * part * d[axis];
  return [findCoordinate(0), findCoordinate(1)];
}

/** The layout of an execution: boxes of events, curves of edges, and places of labels. */
export class GraphLayout {
  /** Lays out an execution. `texts` are those of the events, `edges` what is drawn, `initial` the reads of the initial word. */
  constructor(execution, texts, edges, initial) {
    const events = execution.listEvents();
    this.threads = execution.paths.map((_, thread) => events.filter((it) => findThread(it) === thread));
    this.rows = new Map(this.threads.flatMap((of) => of.map((it, row) => [it, row])));
    this.most = Math.max(...this.threads.map((it) => it.length), 1);
    this.letters = Math.max(...events.map((it) => texts.get(it).length), 4);
    this.ends = new Map();
    this.lanes = new Map();
    this.pairs = new Map();
    this.routes = edges.map((edge, number) => this.makeRoute(edge, number));
    this.starts = initial.map((event, number) => this.makeStartRoute(event, edges.length + number));
    this.placeThreads(UPRIGHT);
    if (this.threads.length > 2 || this.size[0] > MAX_UPRIGHT) this.placeThreadsClosely(this.size[0]);
    this.sortEnds();
    this.taken = [...events.map((it) => [...this.findCorner(it), ...this.box]), ...this.threads.map((_, thread) => this.makeTitleBox(thread))];
    // For each route, by its number, points along its arrow.
    this.passed = new Map([...this.routes, ...this.starts].map((it) => [it.number, this.sampleArrow(it)]));
  }

  // The routes of edges.

  /** Returns the route of an edge. */
  makeRoute(edge, number) {
    const { kind, source, target } = edge;
    const [from, to] = [findThread(source), findThread(target)];
    const rows = this.rows.get(target) - this.rows.get(source);
    const route = { edge, number, way: "across", gap: null };
    if (from === to) {
      const isNext = kind === "po" && rows === 1;
      Object.assign(route, { way: isNext ? "next" : "around", rows: Math.abs(rows) });
      route.beside = this.countRoutesOfPair(source, target);
      if (isNext) return route;
      const side = kind === "po" ? 0 : 1;
      return this.recordEnds(route, side, side);
    }
    if (Math.abs(from - to) > 1) {
      route.way = "lane";
      route.gap = Math.min(this.rows.get(source), this.rows.get(target)) + 1;
      this.lanes.set(route.gap, [...(this.lanes.get(route.gap) ?? []), route]);
    }
    return from < to ? this.recordEnds(route, 1, 0) : this.recordEnds(route, 0, 1);
  }

  /** Counts one more edge that goes around a side between two events. Returns how many such edges there were before it. */
  countRoutesOfPair(...events) {
    const key = events.sort((a, b) => a - b).join(" ");
    this.pairs.set(key, (this.pairs.get(key) ?? -1) + 1);
    return this.pairs.get(key);
  }

  /** Records at which sides of its events a route ends: 0 is that of the thread before, 1 that of the thread after. Returns the route. */
  recordEnds(route, sourceSide, targetSide) {
    Object.assign(route, { sides: [sourceSide, targetSide], ports: [0, 0] });
    this.addEnd(route.edge.source, sourceSide, { route, end: 0 });
    this.addEnd(route.edge.target, targetSide, { route, end: 1 });
    return route;
  }

  /** Adds an end of a route to a side of an event. */
  addEnd(event, side, end) {
    const key = `${event} ${side}`;
    this.ends.set(key, [...(this.ends.get(key) ?? []), end]);
  }

  /** Returns the arrow from the initial word to a read. */
  makeStartRoute(event, number) {
    const route = { edge: { source: event, target: event }, number, way: "start", ports: [0, 0] };
    this.addEnd(event, 0, { route, end: 1 });
    return route;
  }

  // The places of the threads.

  /** Places threads close together, or turned; a picture with the most room is `upright` pixels wide. */
  placeThreadsClosely(upright) {
    const lanes = Math.max(0, ...[...this.lanes.values()].map((it) => it.length));
    const gutter = this.threads.length < 3 ? WIDE_GUTTER : NARROW.gutter;
    this.placeThreads({ ...NARROW, gutter, gap: Math.max(NARROW.gap, 16 + LANE * lanes) });
    if (this.size[0] <= MAX_NARROW) return;
    this.placeThreads(TURNED);
    if (this.threads.length < 3 || this.size[0] > NARROWER * upright) this.placeThreads(UPRIGHT);
  }

  /** Places the threads with some room, and finds the size of the picture. */
  placeThreads(room) {
    this.isTurned = room === TURNED;
    this.box = [this.letters * LETTER + 2 * room.beside, BOX];
    const [wide, deep] = this.isTurned ? [this.box[1], this.box[0]] : this.box;
    Object.assign(this, { room, wide, deep, pitch: deep + room.gap });
    this.begin = this.isTurned ? EDGE + 3 * LETTER + OUTER : EDGE + LINE + 6;
    const counts = this.threads.map(() => 0).concat(0);
    for (const [key, ends] of this.ends) {
      const [event, side] = key.split(" ").map(Number);
      counts[findThread(event) + side] += ends.length;
    }
    this.lefts = [];
    let across = counts[0] ? room.side : OUTER;
    for (const thread of this.threads.keys()) {
      this.lefts.push(across);
      const number = counts[thread + 1];
      const isLast = thread === this.threads.length - 1;
      const gutter = room.gutter + room.more * Math.max(0, Math.min(number, MAX_ENDS) - FREE_ENDS);
      across += wide + (isLast ? (number ? room.side : OUTER) : gutter);
    }
    const behind = (this.lanes.get(this.most)?.length ?? 0) * LANE;
    const along = this.begin + (this.most - 1) * this.pitch + deep + (behind ? behind + 14 : room.end);
    this.size = this.toPicture([across, along]);
  }

  /** Returns a point as x and y, from its coordinates along the two axes. */
  toPicture([across, along]) {
    return this.isTurned ? [along, across] : [across, along];
  }

  /** Returns the start of an event's box, along the two axes. */
  findSpot(event) {
    return [this.lefts[findThread(event)], this.begin + this.rows.get(event) * this.pitch];
  }

  /** Returns the upper left corner of the box of an event. */
  findCorner(event) {
    return this.toPicture(this.findSpot(event));
  }

  /** Returns the start of a thread's name, at its base. */
  findTitle(thread) {
    return this.isTurned ? [EDGE, this.lefts[thread] + BASE] : [this.lefts[thread], EDGE + LINE - 4];
  }

  /** Returns the box of the name of a thread, which no label may cover. */
  makeTitleBox(thread) {
    const [x, y] = this.findTitle(thread);
    return [x, y - LABEL, 3 * LETTER, LABEL + 4];
  }

  /** Returns the place of a route's lane along program order. */
  findLane(route) {
    const all = this.lanes.get(route.gap);
    const middle = this.begin + route.gap * this.pitch - (this.pitch - this.deep) / 2;
    return middle + (all.indexOf(route) - (all.length - 1) / 2) * Math.min(LANE, (this.room.gap - 10) / all.length);
  }

  // The ends of edges on the sides of boxes.

  /** Sets the ports of all routes: at each side of a box its ends are evenly apart, in the order of the places from which they come. */
  sortEnds() {
    const findMiddle = (event) => this.findSpot(event)[1] + this.deep / 2;
    const makeSortKey = ({ route, end }) => {
      if (route.way === "lane") return this.findLane(route);
      if (route.way === "start") return findMiddle(route.edge.source);
      return findMiddle(end ? route.edge.source : route.edge.target);
    };
    for (const [name, ends] of this.ends) {
      const first = this.findSpot(Number(name.split(" ")[0]))[1];
      const sorted = [...ends].sort((a, b) => makeSortKey(a) - makeSortKey(b) || a.route.number - b.route.number);
      for (const [at, { route, end }] of sorted.entries()) route.ports[end] = first + (this.deep * (at + 1)) / (sorted.length + 1);
    }
  }

  /** Returns where the two ends of a route are: each across the threads, and along the side of its box. */
  findEnds({ edge, sides, ports }) {
    const findSide = (event, side) => this.lefts[findThread(event)] + (side ? this.wide + 2 : -2);
    return [[findSide(edge.source, sides[0]), ports[0]], [findSide(edge.target, sides[1]), ports[1]]];
  }

  // The ways themselves: cubic curves, with straight lines between them.

  /** Returns the curves of a route, in x and y. */
  makePictureCurves(route) {
    return this.makeCurves(route).map((curve) => curve.map((point) => this.toPicture(point)));
  }

  /** Returns the curves of a route, along the two axes. */
  makeCurves(route) {
    const { edge, way } = route;
    const [across, along] = this.findSpot(edge.source);
    if (way === "next") {
      const middle = across + this.wide / 2;
      return [makeLine([middle, along + this.deep + 2], [middle, this.findSpot(edge.target)[1] - 2])];
    }
    if (way === "start") return [makeLine([across - STUB, route.ports[1]], [across - 2, route.ports[1]])];
    const [begin, end] = this.findEnds(route);
    if (way === "around") return [makeSideCurve(begin, end, route, this.room.side + 10)];
    return way === "across" ? [makeSwing(begin, end)] : this.makeLaneCurves(begin, end, this.findLane(route));
  }

  /** Returns the way into a lane, along it, and out of it. */
  makeLaneCurves(begin, end, lane) {
    const reach = 0.8 * this.room.gutter * (begin[0] < end[0] ? 1 : -1);
    const [enter, leave] = [[begin[0] + reach, lane], [end[0] - reach, lane]];
    return [makeSwing(begin, enter), makeLine(enter, leave), makeSwing(leave, end)];
  }

  // The labels.

  /**
   * Returns the middle of a label of so many letters near an edge: inside the picture, over no box and no other label, and over no arrow of
   * another edge, if there is such a place. Later labels stay off this one.
   */
  placeLabel(route, letters) {
    const width = letters * LETTER + APART;
    const spots = this.listLabelSpots(route, width);
    const makeBox = ([x, y]) => [x - width / 2, y - LABEL / 2, width, LABEL];
    const free = spots.filter((it) => this.isFree(makeBox(it)));
    const crossed = (free.length ? free : spots.slice(0, 1)).map((it) => ({ spot: it, number: this.countCrossedArrows(makeBox(it), route) }));
    const { spot } = crossed.reduce((best, it) => (it.number < best.number ? it : best));
    this.taken.push(makeBox(spot));
    return spot;
  }

  /** Returns whether a box is inside the picture, and over no event's box, no thread's name and no label. */
  isFree(box) {
    const [x, y, width, height] = box;
    const isInside = x >= 0 && x + width <= this.size[0] && y >= 0 && y + height <= this.size[1];
    return isInside && !this.taken.some((it) => doOverlap(box, it));
  }

  /** Counts the arrows that pass below the box of a route's label: those of other routes, and its own if the head of that is there. */
  countCrossedArrows(box, route) {
    const [x, y, width, height] = box;
    const isIn = ([left, top]) => x - CLEAR < left && left < x + width + CLEAR && y - CLEAR < top && top < y + height + CLEAR;
    const others = [...this.passed].filter(([number, points]) => number !== route.number && points.some(isIn)).length;
    const end = this.passed.get(route.number).at(-1);
    return others + (doOverlap(box, [end[0] - HEAD, end[1] - HEAD, 2 * HEAD, 2 * HEAD]) ? 1 : 0);
  }

  /** Returns points along the arrow of a route, its end last. */
  sampleArrow(route) {
    return this.makePictureCurves(route).flatMap((curve) => Array.from({ length: PARTS + 1 }, (_, part) => findCurvePoint(curve, part / PARTS)));
  }

  /** Returns the spots for a label: at parts of its edge, or beside a straight arrow. */
  listLabelSpots(route, width) {
    const curves = this.makePictureCurves(route);
    const [[x, y]] = curves[0];
    if (route.way === "start") return this.listStartLabelSpots(route, [x, y], width);
    const beside = route.way !== "next" ? [0, 0] : this.isTurned ? [0, -LABEL / 2 - HEAD] : [width / 2 + HEAD, 0];
    const points = curves.flatMap((curve) => PLACES.map((part) => findCurvePoint(curve, part)));
    const [end] = curves.at(-1).slice(-1);
    const isShort = Math.hypot(end[0] - x, end[1] - y) < SHORT && route.way !== "next";
    const offsets = [...(isShort ? [...BESIDE, ...ON] : [...ON, ...BESIDE]), ...FAR];
    return offsets.flatMap(([right, below]) => points.map(([left, top]) => [left + beside[0] + right * width, top + beside[1] + below]));
  }

  /** Returns the spots for the label of an arrow from an initial word: first on the side of it on which no other arrow ends. */
  listStartLabelSpots({ edge, ports }, [x, y], width) {
    const isLast = ports[1] > this.findSpot(edge.source)[1] + this.deep / 2;
    const [sideways, downwards] = [width / 2 + 4, 11];
    const spots = this.isTurned
      ? [[x - sideways, y + 6], [x + sideways, y + 6], [x, y - 8]]
      : [[x + 4, y - downwards], [x + 4, y + downwards], [x - 8, y - downwards], [x - 8, y + downwards], [x - width / 2, y]];
    return isLast ? [spots[1], spots[0], ...spots.slice(2)] : spots;
  }
}

/** Returns a straight line as a cubic curve. */
function makeLine(begin, end) {
  const findPoint = (part) => [begin[0] + (end[0] - begin[0]) * part, begin[1] + (end[1] - begin[1]) * part];
  return [begin, findPoint(1 / 3), findPoint(2 / 3), end];
}

/** Returns a curve that leaves and arrives across the threads. */
function makeSwing(begin, end) {
  const half = (end[0] - begin[0]) / 2;
  return [begin, [begin[0] + half, begin[1]], [end[0] - half, end[1]], end];
}

/** Returns a curve out of a side and back to it, whose points are at most `most` pixels away from it. */
function makeSideCurve(begin, end, { sides, rows, beside }, most) {
  const out = Math.min(20 + 8 * rows + 12 * beside, most) * (sides[0] ? 1 : -1);
  return [begin, [begin[0] + out, begin[1]], [end[0] + out, end[1]], end];
}

/** Returns whether two boxes overlap. */
function doOverlap([x, y, width, height], [left, top, wide, high]) {
  return x < left + wide && left < x + width && y < top + high && top < y + height;
}
