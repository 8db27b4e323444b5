"use strict";

/** Tests of the plots of a page: `node plotted.js PAGE`. The page is that of tests/test_page_signals.py. */
const assert = require("node:assert");
require("./loaded.js");
const {openPage} = require("./document.js");

/** A context that notes what it strokes: the colour, the dash and the points of each path. */
class Strokes {
  constructor() {
    this.paths = [];
    this.dash = [];
  }

  setLineDash(dash) {
    this.dash = dash;
  }

  beginPath() {
    this.path = [];
  }

  moveTo(x, y) {
    this.path.push(["move", x, y]);
  }

  lineTo(x, y) {
    this.path.push(["line", x, y]);
  }

  stroke() {
    this.paths.push([this.strokeStyle, this.dash.join(" "), ...this.path.map((it) => it.join(" "))]);
  }
}

/** A view of 100 macroticks in 100 pixels. */
const VIEW = {from: 0, span: 100, width: 100, length: 100};

/** Tests the steps of a pen. */
function testPen() {
  const context = new Strokes();
  const pen = new Pen(context, VIEW);
  pen.draw("red", [2], 0, 10, 5);
  pen.draw("red", [2], 10, 20, 7);
  pen.draw("grey", [], 20, 30, 7);
  pen.lift();
  pen.draw("grey", [], 40, 50, 3);
  pen.draw("grey", [], 50, 50.2, 3);
  pen.end();
  assert.deepStrictEqual(context.paths, [
    ["red", "2", "move 0 5", "line 10 5", "line 10 7", "line 20 7"],
    ["grey", "", "move 20 7", "line 30 7", "move 40 3", "line 50 3"]]);
  const narrow = new Strokes();
  const other = new Pen(narrow, VIEW);
  other.draw("red", [], -50, 300, 1);
  other.end();
  assert.deepStrictEqual(narrow.paths, [["red", "", "move -1 1", "line 101 1"]]);
}

/** Tests ranges and marks of scales. */
function testScales() {
  const lines = (...values) => [{values, steps: values.map(() => ({read: null}))}];
  assert.deepStrictEqual(rangeOf(lines(3, null, 1)), [1, 3]);
  assert.deepStrictEqual(rangeOf(lines(4)), [2, 6]);
  assert.deepStrictEqual(rangeOf(lines(0, 0)), [-1, 1]);
  assert.deepStrictEqual(rangeOf(lines(null)), [0, 1]);
  assert.deepStrictEqual(marksOf(lines(1, 3), {}, [1, 3]).map((it) => it.text), ["1", "2", "3"]);
  const named = [{values: [0, 2], steps: [{read: {name: "off"}}, {read: {name: "on"}}]}];
  assert.deepStrictEqual(marksOf(named, {}, [0, 2]), [{value: 0, text: "off"}, {value: 2, text: "on"}]);
}

/** Tests exact texts and nearest numbers by hand. */
function testNumbers() {
  const text = (top, bottom) => exactText({top: BigInt(top), bottom: BigInt(bottom)});
  assert.deepStrictEqual([text(1, 3), text(-2, 6), text(-5, 4), text(7, 1), text(0, 9), text(1, 100), text(30, 10)],
                         ["1/3", "-1/3", "-1.25", "7", "0", "0.01", "3"]);
  assert.strictEqual(text(1, 10n ** 40n), `0.${"0".repeat(39)}1`);
  assert.strictEqual(text(1, 10n ** 41n), `1/1${"0".repeat(41)}`);
  const near = (top, bottom) => nearestNumber({top: BigInt(top), bottom: BigInt(bottom)});
  assert.deepStrictEqual([near(1, 3), near(-1, 10), near(2n ** 53n + 1n, 1), near(2n ** 53n + 3n, 1)],
                         [1 / 3, -0.1, 2 ** 53, 2 ** 53 + 4]);
  assert.deepStrictEqual([near(1, 2n ** 1074n), near(1, 2n ** 1075n), near(3, 2n ** 1075n), near(2n ** 1024n, 1)],
                         [5e-324, 0, 1e-323, Infinity]);
  assert.deepStrictEqual([near(2n ** 1024n - 2n ** 970n, 1), near(2n ** 1024n - 2n ** 970n - 1n, 1)],
                         [Infinity, Number.MAX_VALUE]);
}

/** Tests the lines of the plot of the speed, and what is painted. */
async function testPlot(page) {
  openPage(page);
  await explore();
  showSignals();
  const {plots, explorer} = globalThis;
  const plot = plots.shown[0];
  const line = plot.lines[2];
  assert.deepStrictEqual([line.stepAt(-1), line.stepAt(0), line.stepAt(99), line.stepAt(450)], [-1, 0, 0, 2]);
  assert.strictEqual(line.lossAt(250, 0).time, 200);
  assert.strictEqual(line.lossAt(99, 0), null);
  assert.strictEqual(line.lossAt(1000, line.stepAt(1000)), null);
  const context = new Strokes();
  const theme = {ink: "ink", grid: "grid", error: "error"};
  const picture = {context, view: {from: 0, span: 500, width: 500, length: 500}, theme, limit: 150};
  plot.paintLine(picture, line);
  assert.deepStrictEqual(context.paths.map(([colour]) => colour), [COLOURS[2], "grid", COLOURS[2]]);
  assert.deepStrictEqual(context.paths[1].slice(1, 4), ["", `move 150 ${plot.heightOf(87.5)}`,
                                                       `line 300 ${plot.heightOf(87.5)}`]);
  context.paths = [];
  plot.paintLosses(picture, line);
  assert.deepStrictEqual(context.paths.map(([colour, , first]) => [colour, first]),
                         [100, 200].map((x) => ["error", `move ${x - 4} ${plot.heightOf(87.5) - 4}`]));
  explorer.paint();
  assert.ok(plot.canvas.painted.texts.includes("90"));
  // A cycle has 100 macroticks, and the state buffer is sent in each one.
  assert.strictEqual(plots.ageOf(plot.chosen), 200);
  plots.age.value = "3";
  assert.strictEqual(plots.ageOf(plot.chosen), 300);
  explorer.print(true);
  plots.hide(plot);
  assert.strictEqual(document.activeElement.id, "signal");
}

testPen();
testScales();
testNumbers();
testPlot(process.argv[2]).then(() => process.exit(0), (error) => {
  process.stderr.write(error.stack);
  process.exit(1);
});
