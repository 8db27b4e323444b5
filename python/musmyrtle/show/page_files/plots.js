"use strict";

/** The pixels of a plot, of its margins above and below, of a mark of a loss, and of the least step. */
const PLOT_HEIGHT = 132;
const PLOT_TOP = 12;
const PLOT_BOTTOM = 24;
const CROSS = 4;
const LEAST_STEP = 0.5;
const FIRST_SHOWN = 2;
const MOST_MARKS = 5;
const MARK_ROOM = 14;
const LONGEST_MARK = 16;
/** The dashes of lines, by the number of the line. The nodes 8 to 15 have the colours of 0 to 7. */
const DASHES = [[], [7, 3], [2, 2], [9, 3, 2, 3]];

/** A line of a plot with numbers: the value at each step, and the times of all changes. */
class Line {
  /**
   * @param {Series} series
   * @param {number} place its number among the lines of its plot
   */
  constructor(series, place) {
    Object.assign(this, series);
    this.place = place;
    this.times = Float64Array.from(this.steps, (it) => it.time);
    this.values = this.steps.map(({read}) => (read === null ? null : numberOf(read)));
    this.lossTimes = Float64Array.from(this.losses, (it) => it.time);
  }

  /** Returns the number of the last step until a time, or -1. */
  stepAt(time) {
    const later = below(this.times, time);
    return this.times[later] === time ? later : later - 1;
  }

  /** Returns the loss at or before a time that came after a step, or null. */
  lossAt(time, step) {
    const later = below(this.lossTimes, time);
    const at = this.lossTimes[later] === time ? later : later - 1;
    return at >= 0 && (step < 0 || this.lossTimes[at] > this.times[step]) ? this.losses[at] : null;
  }

  /** Returns the steps at which the value becomes another one, and the losses. */
  events() {
    const isOther = (it) => it === 0 || textOfRaw(this.steps[it]) !== textOfRaw(this.steps[it - 1]);
    return [...this.steps.filter((_, it) => isOther(it)), ...this.losses];
  }
}

/** Returns the raw value of a step as a text. */
function textOfRaw({read}) {
  return read === null ? "" : String(read.raw);
}

/** Returns the lowest and the highest value of all lines, with room if they are equal. */
function rangeOf(lines) {
  let [low, high] = [Infinity, -Infinity];
  for (const {values} of lines) {
    for (const it of values) {
      if (it !== null) {
        [low, high] = [Math.min(low, it), Math.max(high, it)];
      }
    }
  }
  const room = low === high ? Math.abs(low) / 2 || 1 : 0;
  return low > high ? [0, 1] : [low - room, high + room];
}

/** Returns the marks of the scale: names of values that lines have, or the lowest, middle and highest number. */
function marksOf(lines, signal, [low, high]) {
  const named = new Map();
  for (const {steps, values} of lines) {
    steps.forEach(({read}, it) => {
      if (read !== null && read.name !== null && values[it] !== null && named.size <= MOST_MARKS) {
        named.set(values[it], cut(read.name));
      }
    });
  }
  if (named.size && named.size <= MOST_MARKS) {
    return [...named].map(([value, text]) => ({value, text}));
  }
  return [low, low / 2 + high / 2, high].map((value) => ({value, text: String(Number(value.toPrecision(6)))}));
}

/** Returns the macroticks after which a value of a signal is old by itself: two periods of a state buffer, or never. */
function usualAge(run, {node, buffer}) {
  const its = run.header.nodes[node].buffers[buffer];
  return its.kind === "state" ? 2 * its.repetition * run.lengthOf(0) : Infinity;
}

/** One signal over time: a picture, the lines with their values at the cursor, and the keys of the picture. */
class Plot {
  /**
   * @param {Plots} plots
   * @param {Choosable} chosen
   */
  constructor(plots, chosen) {
    this.plots = plots;
    this.run = plots.run;
    this.chosen = chosen;
    this.lines = seriesOf(plots.run, chosen).map((it, place) => new Line(it, place));
    this.range = rangeOf(this.lines);
    this.marks = marksOf(this.lines, chosen.signal, this.range);
    this.events = this.lines.flatMap((it) => it.events()).sort(byTime);
    this.cursor = null;
    this.canvas = element("canvas", {tabindex: "0", role: "img"});
    this.list = element("ul", {class: "lines"});
    const hide = button("Hide", () => plots.hide(this), {"aria-label": `Hide ${chosen.text}`});
    this.box = element("figure", {class: "plot"}, element("figcaption", {}, chosen.text, hide),
                       element("div", {class: "picture"}, this.canvas), this.list);
    this.listen();
    this.tell();
  }

  /** Connects the picture with the pointer and the keys. */
  listen() {
    const {explorer} = this.plots;
    this.canvas.addEventListener("pointermove", (event) => {
      const x = explorer.pixel(event).x;
      this.point(Math.round(timeAt(explorer.view, Math.min(explorer.view.width, Math.max(0, x)))));
    });
    this.canvas.addEventListener("wheel", (event) => explorer.wheel(event));
    this.canvas.addEventListener("keydown", (event) => this.press(event));
  }

  /** Sets the cursor to a time. */
  point(time) {
    this.cursor = time;
    this.tell();
    this.plots.explorer.draw();
  }

  /** Does what a key on the picture stands for. Other keys are those of the time axis. */
  press(event) {
    const moves = {ArrowLeft: -1, ArrowRight: 1};
    if (event.ctrlKey || event.metaKey || event.altKey) {
      return;
    }
    if (moves[event.key]) {
      event.preventDefault();
      this.move(moves[event.key]);
    } else if (event.key === "Enter") {
      event.preventDefault();
      this.open();
    } else {
      this.plots.explorer.press(event);
    }
  }

  /** Moves the cursor to the next change, or to the one before, and says the values there. */
  move(way) {
    const times = this.events.map((it) => it.time);
    const from = this.cursor === null ? way > 0 ? -1 : Infinity : this.cursor;
    const next = way > 0 ? times.find((it) => it > from) : times.filter((it) => it < from).pop();
    const {explorer} = this.plots;
    if (next === undefined) {
      explorer.tell(`There is no ${way > 0 ? "later" : "earlier"} change.`);
      return;
    }
    explorer.set(viewAt(explorer.view, next, next));
    this.point(next);
    explorer.tell(`${timeText(this.run, next)}: ${this.texts().map(({label, text}) => `${label} ${text}`).join("; ")}`);
  }

  /** Opens the slot of the last frame, or of the last loss, until the cursor. */
  open() {
    const until = this.events.filter((it) => it.window >= 0 && it.time <= this.cursor);
    const last = until[until.length - 1];
    if (this.cursor !== null && last) {
      this.plots.explorer.open({kind: "window", number: last.window, channel: last.channel});
    }
  }

  /** Returns for each line its label, and its value at the cursor with what is strange, or how many frames it has. */
  texts() {
    return this.lines.map((line) => ({line, label: line.label, ...this.textOf(line)}));
  }

  /** Returns the text of one line at the cursor, and its class. */
  textOf(line) {
    if (this.cursor === null) {
      const what = counted(line.steps.length, line.isCommitted ? "commit" : "frame");
      const lost = line.losses.length ? `, ${line.losses.length.toLocaleString("en")} lost` : "";
      return {text: what + lost, mark: line.losses.length ? "lost" : ""};
    }
    const step = line.stepAt(this.cursor);
    const loss = line.lossAt(this.cursor, step);
    const lost = loss ? `, lost in cycle ${cycleText(this.run, this.run.columns.window_cycle[loss.window])}` : "";
    if (step < 0) {
      return {text: `nothing${lost}`, mark: loss ? "lost" : ""};
    }
    const age = this.cursor - line.times[step];
    const isOld = !line.isCommitted && age > this.plots.ageOf(this.chosen);
    const value = valueText(this.chosen.signal, line.steps[step].read);
    const since = line.isCommitted ? "" : `, ${timeText(this.run, age)} old`;
    return {text: value + since + lost, mark: loss ? "lost" : isOld ? "old" : ""};
  }

  /** Shows the values at the cursor. */
  tell() {
    const items = this.texts().map(({line, label, text, mark}) => {
      const colour = line.node === null ? "ink" : `node n${line.node % 8}${line.node < 8 ? "" : " striped"}`;
      return element("li", {class: `${colour} ${mark}`.trim()}, `${label}: ${text}`);
    });
    const at = this.cursor === null ? [] : [element("li", {}, `at ${timeText(this.run, this.cursor)}`)];
    this.list.replaceChildren(...at, ...items);
    this.canvas.setAttribute("aria-label", `${this.chosen.text}. ${items.map((it) => it.textContent).join(". ")}`);
  }

  // ---- the picture

  /** Paints the picture. */
  paint() {
    const {explorer} = this.plots;
    const {view} = explorer;
    const context = sizedContext(this.canvas, GUTTER + view.width, PLOT_HEIGHT);
    const theme = explorer.isPrinted ? PAPER : themeOf();
    const picture = {context, view, theme, limit: this.plots.ageOf(this.chosen)};
    context.fillStyle = theme.paper;
    context.fillRect(0, 0, GUTTER + view.width, PLOT_HEIGHT);
    context.font = FONT;
    context.textBaseline = "middle";
    this.paintScale(picture);
    context.save();
    context.beginPath();
    context.rect(GUTTER, 0, view.width, PLOT_HEIGHT);
    context.clip();
    context.translate(GUTTER, 0);
    this.paintTimes(picture);
    // What was committed lies above what receivers have, and losses above both.
    [...this.lines].reverse().forEach((it) => this.paintLine(picture, it));
    this.lines.forEach((it) => this.paintLosses(picture, it));
    if (this.cursor !== null) {
      context.fillStyle = theme.ink;
      context.fillRect(pixelOf(view, this.cursor), PLOT_TOP, 1, PLOT_HEIGHT - PLOT_TOP - PLOT_BOTTOM);
    }
    context.restore();
  }

  /** Returns the pixel of a value. */
  heightOf(value) {
    const [low, high] = this.range;
    const share = (value / 2 - low / 2) / (high / 2 - low / 2);
    return PLOT_HEIGHT - PLOT_BOTTOM - share * (PLOT_HEIGHT - PLOT_TOP - PLOT_BOTTOM);
  }

  /** Paints the scale: lines of marks, with their texts where there is room. */
  paintScale({context, view, theme}) {
    let before = Infinity;
    for (const {value, text} of [...this.marks].sort((one, other) => one.value - other.value)) {
      const y = this.heightOf(value);
      context.fillStyle = theme.grid;
      context.globalAlpha = 0.5;
      context.fillRect(GUTTER, Math.round(y), view.width, 1);
      context.globalAlpha = 1;
      if (before - y >= MARK_ROOM) {
        context.fillStyle = theme.ink;
        context.fillText(text.slice(0, LONGEST_MARK), 8, y);
        before = y;
      }
    }
  }

  /** Paints the times below the picture. */
  paintTimes({context, view, theme}) {
    const {scale, unit} = unitOf(this.run);
    for (const {time, text} of ticksOf(view, scale)) {
      const x = pixelOf(view, time);
      context.fillStyle = theme.grid;
      context.fillRect(x, PLOT_HEIGHT - PLOT_BOTTOM, 1, 6);
      context.fillStyle = theme.ink;
      context.fillText(`${text} ${unit}`, x + 3, PLOT_HEIGHT - 9);
    }
  }

  /** Paints the steps of a line that are in view, grey where a receiver's value is old. */
  paintLine({context, view, theme, limit}, line) {
    const colour = line.isCommitted ? theme.ink : COLOURS[line.node % 8];
    const first = Math.max(0, line.stepAt(view.from));
    context.lineWidth = line.isCommitted ? 1.5 : 2.5;
    const dash = line.isCommitted ? [] : DASHES[line.place % DASHES.length];
    const pen = new Pen(context, view);
    for (let step = first; step < line.times.length && line.times[step] <= view.from + view.span; step += 1) {
      const value = line.values[step];
      const end = step + 1 < line.times.length ? line.times[step + 1] : this.run.length;
      if (value === null) {
        pen.lift();
        continue;
      }
      const old = line.isCommitted ? end : Math.min(end, line.times[step] + limit);
      pen.draw(colour, dash, line.times[step], old, this.heightOf(value));
      if (old < end) {
        pen.draw(theme.grid, [], old, end, this.heightOf(value));
      }
    }
    pen.end();
    context.setLineDash([]);
  }

  /** Paints a red cross for each loss, at the value that the receiver goes on to have. */
  paintLosses({context, view, theme}, line) {
    context.strokeStyle = theme.error;
    context.lineWidth = 2;
    let before = -Infinity;
    for (let at = below(line.lossTimes, view.from); at < line.losses.length; at += 1) {
      const x = pixelOf(view, line.lossTimes[at]);
      if (x > view.width) {
        break;
      }
      if (x - before >= LEAST_STEP) {
        const value = line.values[line.stepAt(line.lossTimes[at])];
        const y = value === undefined || value === null ? PLOT_HEIGHT - PLOT_BOTTOM : this.heightOf(value);
        paintCross(context, x, y);
        before = x;
      }
    }
  }
}

/** Paints a cross. */
function paintCross(context, x, y) {
  context.beginPath();
  context.moveTo(x - CROSS, y - CROSS);
  context.lineTo(x + CROSS, y + CROSS);
  context.moveTo(x - CROSS, y + CROSS);
  context.lineTo(x + CROSS, y - CROSS);
  context.stroke();
}

/** Draws steps. Those of one colour are one path, and those that end within half a pixel are left out. */
class Pen {
  /**
   * @param {CanvasRenderingContext2D} context
   * @param {View} view
   */
  constructor(context, view) {
    this.context = context;
    this.view = view;
    this.colour = null;
    this.x = null;
    this.y = 0;
  }

  /** Draws a value from one time to another, joined to the value before. */
  draw(colour, dash, begin, end, y) {
    const from = Math.max(-1, pixelOf(this.view, begin));
    const to = Math.min(this.view.width + 1, pixelOf(this.view, end));
    if (colour !== this.colour) {
      const {x} = this;
      this.end();
      this.context.strokeStyle = colour;
      this.context.setLineDash(dash);
      this.context.beginPath();
      this.colour = colour;
      this.x = x;
      this.context.moveTo(x === null ? from : x, x === null ? y : this.y);
    } else if (this.x === null) {
      this.context.moveTo(from, y);
    }
    if (this.x !== null && y !== this.y) {
      this.context.lineTo(from, y);
    }
    if (this.x === null || to - this.x >= LEAST_STEP) {
      this.context.lineTo(to, y);
      this.x = to;
    }
    this.y = y;
  }

  /** Leaves a gap. */
  lift() {
    this.x = null;
  }

  /** Ends the path. */
  end() {
    if (this.colour !== null) {
      this.context.stroke();
    }
    this.colour = null;
    this.x = null;
  }
}

/** Returns the context of a canvas with a size in pixels of the page. */
function sizedContext(canvas, width, height) {
  const ratio = globalThis.devicePixelRatio || 1;
  if (canvas.width !== Math.round(width * ratio) || canvas.height !== Math.round(height * ratio)) {
    canvas.width = Math.round(width * ratio);
    canvas.height = Math.round(height * ratio);
    canvas.style.height = `${height}px`;
  }
  const context = canvas.getContext("2d");
  context.setTransform(ratio, 0, 0, ratio, 0, 0);
  return context;
}

/** The plots of the page: those that are shown, and the controls that choose them. */
class Plots {
  /** @param {Explorer} explorer */
  constructor(explorer) {
    this.explorer = explorer;
    this.run = explorer.run;
    this.choosable = choosableOf(this.run);
    this.shown = [];
    this.place = document.getElementById("plots");
    this.select = document.getElementById("signal");
    this.age = document.getElementById("age");
    this.select.append(...this.choosable.map((it, number) => element("option", {value: String(number)}, it.text)));
    const paint = explorer.paint.bind(explorer);
    explorer.paint = () => {
      paint();
      this.shown.forEach((it) => it.paint());
    };
    document.getElementById("choose-signal").addEventListener("submit", (event) => {
      event.preventDefault();
      this.show(Number(this.select.value));
    });
    this.age.addEventListener("input", () => this.setAge());
    this.firstOnes().forEach((it) => this.show(it));
  }

  /** Returns the signals that are shown at first: those with the most committed values, or the first ones. */
  firstOnes() {
    const changes = this.run.isRecording ? this.choosable.map(() => 1) : changesOf(this.run, this.choosable);
    const numbers = [...changes.keys()].filter((it) => changes[it]);
    return numbers.sort((one, other) => changes[other] - changes[one] || one - other).slice(0, FIRST_SHOWN);
  }

  /** Shows a signal, if it isn't shown yet. */
  show(number) {
    const chosen = this.choosable[number];
    if (!chosen || this.shown.some((it) => it.chosen === chosen)) {
      return;
    }
    const made = new Plot(this, chosen);
    this.shown.push(made);
    this.place.append(made.box);
    this.explorer.draw();
  }

  /** Hides a plot. The choice of signals takes its focus. */
  hide(plot) {
    this.shown = this.shown.filter((it) => it !== plot);
    plot.box.remove();
    this.select.focus();
  }

  /** Returns the macroticks after which a value is old: the given cycles, or by the period of its sender. */
  ageOf(chosen) {
    const cycles = Number(this.age.value);
    return cycles > 0 ? cycles * this.run.lengthOf(0) : usualAge(this.run, chosen);
  }

  /** Takes another age. */
  setAge() {
    this.shown.forEach((it) => it.tell());
    this.explorer.draw();
  }
}

/** Shows the signals of the page once it is open, or why there are none. */
function showSignals() {
  const {explorer} = globalThis;
  const {why} = explorer.run.header.signals;
  if (why) {
    const place = document.getElementById("no-signals");
    place.textContent = why;
    place.hidden = false;
    document.getElementById("choose-signal").hidden = true;
    return;
  }
  globalThis.plots = new Plots(explorer);
}
