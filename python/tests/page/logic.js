"use strict";

/**
 * Tests of views, lanes, hits and searches: `node logic.js PAGE BITS`, the page of the run of tests/shows.py, and that
 * of a run with a fault for a bit in each minislot of cycle 0 on A.
 */
const assert = require("node:assert/strict");
const test = require("node:test");
const {runOf} = require("./loaded.js");

const [PAGE, BITS] = process.argv.slice(2);

/** Returns cells from begins, ends and marks; each has its own number as window. */
function cellsFrom(begins, ends, marks, channel = 0) {
  return summed({channel, node: null, window: Uint32Array.from(begins.keys()), begin: Uint32Array.from(begins),
                 end: Uint32Array.from(ends), mark: Uint8Array.from(marks), sender: new Uint8Array(begins.length)});
}

/** Returns the numbers that a typed array has, as a list. */
function listed(numbers) {
  return Array.from(numbers);
}

test("numbers below a limit", () => {
  assert.deepEqual([0, 1, 5, 6, 9, 10].map((it) => below([1, 5, 5, 9], it)), [0, 0, 1, 3, 3, 4]);
  assert.equal(below([], 3), 0);
});

test("beginnings and lines of keys", () => {
  assert.deepEqual(listed(beginnings([2, 0, 3])), [0, 2, 2, 5]);
  assert.deepEqual(listed(firstLines([0, 0, 2], 4)), [0, 2, 2, 3, 3]);
});

test("a zoom keeps the time below the pointer", () => {
  const view = wholeView(1000, 100);
  const closer = zoomed(view, 0.5, 25);
  assert.deepEqual([closer.from, closer.span, timeAt(closer, 25)], [125, 500, 250]);
  assert.deepEqual(zoomed(closer, 2, 25), view);
});

test("a view stays within the run", () => {
  const view = {from: 900, span: 100, width: 100, length: 1000};
  assert.equal(moved(view, 50).from, 900);
  assert.equal(moved(view, -2000).from, 0);
  assert.deepEqual(zoomed(view, 100, 0), {...view, from: 0, span: 1000});
  assert.equal(zoomed(view, 1e-9, 0).span, LEAST_SPAN);
  assert.equal(clamped({from: 0, span: 9, width: 10, length: 2}).span, 2);
});

test("a view of some macroticks, and one in which a time is in the middle", () => {
  const view = wholeView(1000, 100);
  assert.deepEqual([viewOf(view, 400, 420).from, viewOf(view, 400, 420).span], [360, 100]);
  const close = {...view, from: 100, span: 100};
  assert.equal(viewAt(close, 110, 130), close);
  assert.equal(viewAt(close, 500, 520).from, 460);
});

test("the numbers of narrow cycles have room", () => {
  assert.deepEqual([500, 71, 70, 36, 35, 6].map(cyclesApart), [1, 1, 2, 2, 4, 16]);
});

test("ticks are round in the unit of the axis", () => {
  const ticks = ticksOf({from: 0, span: 1000, width: 450, length: 1000}, 1);
  assert.deepEqual(ticks.map((it) => it.text), ["0", "200", "400", "600", "800", "1,000"]);
  const halves = ticksOf({from: 10, span: 8, width: 360, length: 1000}, 0.5);
  assert.deepEqual(halves, [{time: 10, text: "5"}, {time: 12, text: "6"}, {time: 14, text: "7"}, {time: 16, text: "8"},
                            {time: 18, text: "9"}]);
});

test("boxes have the real lengths, and a cell that began before is in view", () => {
  const cells = cellsFrom([0, 20, 40], [20, 40, 60], [MARK.data, MARK.data, MARK.data]);
  const {boxes} = laneOf(cells, {from: 10, span: 40, width: 400, length: 100});
  assert.deepEqual(boxes, [{cell: 0, x: -100, width: 200}, {cell: 1, x: 100, width: 200},
                           {cell: 2, x: 300, width: 200}]);
});

test("narrow cells are columns with the share of their traffic", () => {
  // Ten cells of ten macroticks, of which every other one has traffic, on five pixels: a pixel has one of each.
  const begins = Array.from({length: 10}, (_, it) => 10 * it);
  const marks = begins.map((_, it) => (it % 2 ? MARK.silent : it === 4 ? MARK.data | MARK.error : MARK.data));
  const {columns} = laneOf(cellsFrom(begins, begins.map((it) => it + 10), marks),
                           {from: 0, span: 100, width: 5, length: 100});
  assert.deepEqual(columns.map((it) => [it.x, it.share, it.errors, it.first, it.last]),
                   [[0, 0.5, 0, 0, 2], [1, 0.5, 0, 2, 4], [2, 0.5, 1, 4, 6], [3, 0.5, 0, 6, 8], [4, 0.5, 0, 8, 10]]);
});

test("a long cell fills the columns that it spans", () => {
  const cells = cellsFrom([0, 5, 30], [5, 25, 35], [MARK.data, MARK.data, MARK.data]);
  const shares = columnsOf(cells, {from: 0, span: 40, width: 4, length: 40}).map((it) => [it.x, it.share]);
  assert.deepEqual(shares, [[0, 1], [1, 1], [2, 0.5], [3, 0.5]]);
});

test("a hit finds the cell of the lane", () => {
  const lanes = placedLanes([cellsFrom([0, 50], [40, 60], [1, 1]), cellsFrom([10], [20], [1], 1)]);
  const view = {from: 0, span: 100, width: 1000, length: 100};
  const top = lanes[1].top;
  assert.deepEqual(hit(lanes, view, 399, AXIS), {window: 0, channel: 0});
  assert.equal(hit(lanes, view, 450, AXIS), null);
  assert.deepEqual(hit(lanes, view, 500, AXIS + LANE - 1), {window: 1, channel: 0});
  assert.equal(hit(lanes, view, 500, AXIS + LANE), null);
  assert.deepEqual(hit(lanes, view, 150, top), {window: 0, channel: 1});
  assert.equal(hit(lanes, view, 150, AXIS - 1), null);
});

test("the next and the previous mark, in the order of windows and channels", () => {
  const [a, b] = [cellsFrom([0, 1, 2], [1, 2, 3], [0, 4, 0]), cellsFrom([0, 1, 2], [1, 2, 3], [4, 4, 0], 1)];
  const walk = (start, isBack) => {
    const found = [];
    for (let it = nextMarked([a, b], 4, start, isBack); it !== null; it = nextMarked([a, b], 4, it, isBack)) {
      found.push(it);
    }
    return found;
  };
  assert.deepEqual(walk(-1, false), [1, 2, 3]);
  assert.deepEqual(walk(6, true), [3, 2, 1]);
});

test("the cells of a run", async () => {
  const run = await runOf(PAGE);
  const [a, b] = [cellsOf(run, 0), cellsOf(run, 1)];
  assert.deepEqual(listed(a.begin), [0, 20, 40, 100, 120, 140]);
  assert.deepEqual(listed(a.end), [20, 40, 60, 120, 140, 160]);
  assert.deepEqual(listed(a.sender), [0, 1, 0, 0, 1, 0]);
  assert.deepEqual(listed(a.mark), [1, 1, 1, 2, 1, 1]);
  // Slot 1 collides with a babble, no buffer is for slot 2 on B, and a fault is for minislot 9, where nothing is sent.
  assert.deepEqual(listed(b.begin), [0, 20, 80, 100, 120]);
  assert.deepEqual(listed(b.end), [20, 40, 85, 120, 140]);
  assert.deepEqual(listed(b.mark), [MARK.error | MARK.collision | MARK.babble | MARK.data, 2, MARK.silent, 2, 2]);
});

test("the cycle at a time", async () => {
  const run = await runOf(PAGE);
  assert.deepEqual([-1, 0, 99.5, 100, 199.5, 200, 201].map((it) => cycleAt(run, it)), [0, 0, 0, 1, 1, 1, 1]);
  assert.deepEqual([run.lengthOf(0), run.lengthOf(1), run.length], [100, 100, 200]);
});

test("the marks of minislots, and the ground of the dynamic segment", async () => {
  const run = await runOf(PAGE);
  const paintedFrom = (from, width, borders = run.header.minislots) => {
    const boxes = [];
    const context = {fillRect: (...its) => boxes.push(its.map((it) => Math.round(it)))};
    paintMinislots(context, {from, span: 100, width, length: 200}, {top: 0, height: LANE}, 100, borders);
    return boxes;
  };
  // The minislots of cycle 1 are the macroticks 140 to 190, on 100 pixels of 100 macroticks: one for each is 5 wide.
  const [line, ...marks] = paintedFrom(100, 100);
  assert.deepEqual(line, [40, LANE - 2, 50, 2]);
  assert.deepEqual(marks.map((it) => it[0]), [40, 45, 50, 55, 60, 65, 70, 75, 80, 85, 90]);
  assert.deepEqual(paintedFrom(157, 100).map((it) => it[0]), [-17, 3, 8, 13, 18, 23, 28, 33]);
  assert.equal(paintedFrom(100, 99).length, 1);
  assert.deepEqual(dynamicOf({from: 0, span: 100, width: 100, length: 200}, 0, []), [0, 0]);
});

test("the marks of lines, by their words", () => {
  const run = {words: {record_what: ["offer", "babble", "corrupt"], record_end: ["alone", "collided", "blocked", "-"]},
               columns: {record_what: [0, 0, 1, 1, 2], record_end: [0, 1, 0, 2, 3]},
               header: {marks: {offer: {alone: [], collided: ["error", "collision"]},
                                babble: {alone: ["babble", "error"], blocked: ["babble", "blocked"]},
                                corrupt: {other: []}}}};
  assert.deepEqual([0, 1, 2, 3, 4].map((it) => markOf(run, it)),
                   [0, MARK.error | MARK.collision, MARK.babble | MARK.error, MARK.babble | MARK.blocked, 0]);
  assert.equal(bitsOf({alone: [], other: ["error"]}, "no frame of brake"), MARK.error);
});

/** Returns the texts that cycles have in a view. A sign is 7 pixels wide. */
function cycleTextsIn(run, from, width) {
  const texts = [];
  const context = {fillRect() {}, fillText: (it) => texts.push(it), measureText: (it) => ({width: 7 * it.length})};
  paintCycles(context, {run, view: {from, span: 100, width, length: 200}, theme: {}, height: 100, lanes: []});
  return texts;
}

test("the numbers of cycles that have room", async () => {
  const run = await runOf(PAGE);
  // Cycle 1 begins 5 macroticks after the left edge, which are 10 pixels of the 200 of a cycle.
  assert.deepEqual(cycleTextsIn(run, 95, 200), ["cycle 1"]);
  assert.deepEqual(cycleTextsIn(run, 50, 200), ["cycle 0", "cycle 1"]);
  const recorded = Object.assign(Object.create(run), {isRecording: true, number: () => 41,
                                                      header: {...run.header, first_cycle: 40}});
  // `cycle 40 (count 41)` has 19 signs, which are 133 pixels.
  assert.deepEqual(cycleTextsIn(recorded, 0, 136), ["cycle 40", "cycle 41"]);
  assert.deepEqual(cycleTextsIn(recorded, 0, 137), ["cycle 40 (count 41)", "cycle 41 (count 41)"]);
});

test("the text of a faded box has the colour of texts beside boxes", async () => {
  const run = await runOf(PAGE);
  const lane = {cells: cellsOf(run, 0), top: 0, height: LANE};
  const inkOf = (lit) => {
    const inks = [];
    const context = {fillRect() {}, strokeRect() {}, measureText: () => ({width: 1}),
                     fillText() { inks.push(this.fillStyle); }};
    paintBox(context, {run, view: {width: 1000}, theme: {ink: "ink"}, lit}, lane, {cell: 0, x: 0, width: 100});
    return inks;
  };
  const chosen = new Uint8Array(2 * run.windows);
  assert.deepEqual([inkOf(null), inkOf(chosen)], [["#000"], ["ink"]]);
  chosen[0] = 1;
  assert.deepEqual(inkOf(chosen), ["#000"]);
});

test("a fault for a bit without a slot is no cell", async () => {
  const cells = cellsOf(await runOf(BITS), 0);
  // Slot 3 has the minislots 1 to 4, up to macrotick 60. A opens empty slots at the minislots 5 to 10.
  assert.deepEqual(listed(cells.begin), [0, 20, 40, 60, 65, 70, 75, 80, 85, 100, 120]);
  assert.deepEqual(listed(cells.end), [20, 40, 60, 65, 70, 75, 80, 85, 90, 120, 140]);
  const {boxes} = laneOf(cells, {from: 58, span: 4, width: 100, length: 200});
  assert.deepEqual(boxes.map((it) => cells.begin[it.cell]), [40, 60]);
});

test("what a node received", async () => {
  const run = await runOf(PAGE);
  const seen = cellsSeen(run, cellsOf(run, 1), 1);
  assert.deepEqual(listed(seen.mark), [MARK.error | MARK.collision, 2, MARK.silent, 2, 2]);
  assert.equal(run.storedBy(1, 0, 0), "b1");
  assert.equal(run.storedBy(1, 2, 0), "queue");
  assert.equal(run.storedBy(0, 2, 0), null);
});

test("lines in view, also those of slots that began before", async () => {
  const run = await runOf(PAGE);
  const placesAt = (from, span, most = 100) => {
    const {count, lines} = inView(run, {from, span, width: 100, length: 200}, most);
    return [count, lines.map((it) => run.slots[run.channelOf(it)][run.columns.record_window[it]])];
  };
  // Slot 3 takes the macroticks 40 to 60 of A. Slot 1 has a babble on B, and slot 2 a null frame.
  assert.deepEqual(placesAt(45, 10), [1, [3]]);
  assert.deepEqual(placesAt(60, 10), [0, []]);
  assert.deepEqual(placesAt(10, 31), [6, [1, 1, 1, 2, 2, 3]]);
  assert.deepEqual(placesAt(10, 31, 4), [6, [1, 1, 1, 2]]);
  assert.deepEqual(placesAt(150, 9), [1, [3]]);
  assert.deepEqual(placesAt(199, 1), [0, []]);
});

test("searches", async () => {
  const run = await runOf(PAGE);
  const texts = (kind, text) => found(run, kind, text).map((it) => TEXTS[it.kind](run, it));
  assert.deepEqual(texts("node", "BRAKE"), ["brake (1)"]);
  assert.deepEqual(texts("node", "0"), ["pedal (0)"]);
  assert.deepEqual(texts("buffer", "pos"), ["pedal (0) position (0)", "brake (1) position (1)"]);
  assert.deepEqual(texts("slot", "3"), ["slot 3"]);
  assert.deepEqual(texts("slot", "9"), []);
  assert.deepEqual(texts("slot", " "), []);
  assert.deepEqual(texts("payload", "x2222"), ["brake (1) state (2), cycle 0: x2222"]);
  assert.deepEqual(texts("payload", "11 11"), ["brake (1) force (0), cycle 0: x1111", "Slot 2 on A in cycle 0",
                                               "Slot 2 on A in cycle 1"]);
  // The commits of `log` have the bytes 01 01 and 02 02, and no frame has 10 10. An odd digit begins a byte.
  assert.deepEqual(texts("payload", "1010"), []);
  assert.deepEqual(texts("payload", "222"), ["brake (1) state (2), cycle 0: x2222"]);
  assert.deepEqual(texts("payload", "zz"), []);
  // Slot 1 has a babble of x00 on B. The frame of x1111 has the header of slot 2 in front, which is no payload.
  assert.deepEqual(texts("payload", "00").slice(-1), ["Slot 1 on B in cycle 0"]);
  assert.deepEqual(texts("payload", "0002"), []);
  assert.deepEqual(texts("bytes", "x1111"), ["Slot 2 on A in cycle 0", "Slot 2 on A in cycle 1"]);
  assert.deepEqual(texts("bytes", "zz"), []);
});

test("names and times", async () => {
  const run = await runOf(PAGE);
  assert.equal(timeText(run, 1234), "2,468 µs");
  assert.equal(timeText({header: {macrotick_us: null}}, 7), "7 MT");
  assert.equal(timeText({header: {macrotick_us: 0.1}}, 3), "0.3 µs");
  assert.equal(cut("n".repeat(41)), `${"n".repeat(40)}..`);
  assert.equal(nodeName({header: {nodes: [{name: null}]}}, 0), "node 0");
});
