"use strict";

/** The colours of nodes 0 to 7, which colour-blind readers can tell apart. Nodes 8 to 15 have the same with stripes. */
const COLOURS = ["#e69f00", "#56b4e9", "#009e73", "#f0e442", "#0072b2", "#d55e00", "#cc79a7", "#882255"];
const DARK = [4, 7];
const GUTTER = 130;
const FONT = "12px sans-serif";
/** The pixels that the number of a cycle takes at most. */
const NUMBER_ROOM = 70;
/** The pixels of a minislot from which on each has a mark. */
const LEAST_MINISLOT = 5;
/** The colours of the picture by name. The style of the page has them, light and dark. */
const THEME = ["ink", "paper", "grid", "silent", "dynamic", "error", "collision", "lit"];
const PAPER = {ink: "#000", paper: "#fff", grid: "#bbb", silent: "#eee", dynamic: "#f4f4f4", error: "#b3261e",
               collision: "#7a3e9d", lit: "#000"};

/**
 * Paints the picture.
 * @param {CanvasRenderingContext2D} context
 * @param {{run: Run, view: View, lanes: object[], lit: ?Uint8Array, sums: Uint32Array[], calls: object[],
 *          theme: Object<string, string>, height: number}} picture
 */
function paint(context, picture) {
  const {view, theme, height, lanes} = picture;
  context.globalAlpha = 1;
  context.fillStyle = theme.paper;
  context.fillRect(0, 0, GUTTER + view.width, height);
  context.font = FONT;
  context.textBaseline = "middle";
  context.save();
  context.beginPath();
  context.rect(GUTTER, 0, view.width, height);
  context.clip();
  context.translate(GUTTER, 0);
  paintCycles(context, picture);
  paintTicks(context, picture);
  lanes.forEach((lane, place) => paintLane(context, picture, lane, place));
  paintCalls(context, picture);
  context.restore();
  paintLabels(context, picture);
}

/** Returns how far apart cycles of this width with a number are: 1, or a power of 2, as their counts have. */
function cyclesApart(width) {
  let apart = 1;
  while (apart * width <= NUMBER_ROOM) {
    apart *= 2;
  }
  return apart;
}

/** Returns texts for a cycle, the longest first: with its count, if a recording names it, or its number alone. */
function cycleTexts(run, cycle) {
  return [`cycle ${cycleText(run, cycle)}`, `cycle ${(run.header.first_cycle || 0) + cycle}`];
}

/** Paints the dynamic segments, and the borders of cycles with their numbers. */
function paintCycles(context, {run, view, theme, height, lanes}) {
  const first = cycleAt(run, view.from);
  const width = pixelOf(view, view.from + run.lengthOf(first));
  if (width < 6) {
    return;
  }
  const apart = cyclesApart(width);
  for (let cycle = first; cycle < run.header.cycles; cycle += 1) {
    const start = run.beginOf(cycle);
    const x = pixelOf(view, start);
    if (x > view.width) {
      break;
    }
    paintDynamic(context, view, theme, start, run.header.minislots, height);
    // The borders of cycles without a number would cross the numbers.
    const top = cycle % apart === 0 ? 0 : AXIS;
    context.fillStyle = theme.grid;
    context.fillRect(x, top, 1, height - top);
    lanes.forEach((it) => paintMinislots(context, view, it, start, run.header.minislots));
    if (cycle % apart === 0) {
      const left = Math.max(x, 0) + 4;
      paintText(context, theme.ink, cycleTexts(run, cycle), left, 10, x + apart * width - left);
    }
  }
}

/** Paints the ground of the minislots of a cycle, from the borders of these and the begin of the cycle. */
function paintDynamic(context, view, theme, start, borders, height) {
  const [begin, end] = dynamicOf(view, start, borders);
  context.fillStyle = theme.dynamic;
  context.fillRect(begin, AXIS, end - begin, height - AXIS);
}

/** Returns the pixels at which the minislots of a cycle begin and end. */
function dynamicOf(view, start, borders) {
  const ends = borders.length ? [borders[0], borders[borders.length - 1]] : [0, 0];
  return ends.map((it) => pixelOf(view, start + it));
}

/** Paints the axis of the minislots of a lane, with a mark at each border where there is room. */
function paintMinislots(context, view, lane, start, borders) {
  const bottom = lane.top + lane.height;
  const [begin, end] = dynamicOf(view, start, borders);
  context.fillRect(begin, bottom - 2, end - begin, 2);
  if (end - begin < LEAST_MINISLOT * (borders.length - 1)) {
    return;
  }
  const last = below(borders, timeAt(view, view.width) - start);
  for (let border = below(borders, view.from - start); border < last; border += 1) {
    context.fillRect(pixelOf(view, start + borders[border]), bottom - 6, 1, 4);
  }
}

/** Paints the times on the axis. */
function paintTicks(context, {run, view, theme}) {
  const {scale, unit} = unitOf(run);
  for (const {time, text} of ticksOf(view, scale)) {
    const x = pixelOf(view, time);
    context.fillStyle = theme.grid;
    context.fillRect(x, 20, 1, 18);
    context.fillStyle = theme.ink;
    context.fillText(`${text} ${unit}`, x + 3, 28);
  }
}

/** Paints a lane: boxes, or columns of a pixel where cells are narrow. */
function paintLane(context, picture, lane, place) {
  const {boxes, columns} = laneOf(lane.cells, picture.view);
  if (boxes) {
    boxes.forEach((it) => paintBox(context, picture, lane, it));
  } else {
    columns.forEach((it) => paintColumn(context, picture, lane, it, picture.sums[place]));
  }
}

/** Paints a column of a pixel: the share of its time with traffic, errors and collisions above. */
function paintColumn(context, {theme, lit}, lane, column, sums) {
  const bottom = lane.top + lane.height;
  const room = lane.height - 14;
  const isLit = lit && sums[column.last] > sums[column.first];
  context.fillStyle = isLit ? theme.lit : theme.ink;
  context.globalAlpha = isLit ? 1 : lit ? 0.15 : 0.45;
  const share = Math.max(isLit ? 0.5 : 0.02, column.share);
  context.fillRect(column.x, bottom - share * room, 1, share * room);
  context.globalAlpha = 1;
  if (column.errors) {
    context.fillStyle = column.collisions ? theme.collision : theme.error;
    context.fillRect(column.x, lane.top, 1, 10);
  }
}

/** Paints one slot: its sender's colour, null frames low, errors and collisions at the top. */
function paintBox(context, {run, view, theme, lit}, lane, {cell, x, width}) {
  const {cells, top, height} = lane;
  const mark = cells.mark[cell];
  const sender = cells.sender[cell];
  const isLit = lit !== null && lit[2 * cells.window[cell] + cells.channel] === 1;
  const inner = width > 3 ? width - 1 : width;
  const isFaded = lit !== null && !isLit;
  context.globalAlpha = isFaded ? 0.25 : 1;
  const share = mark & MARK.silent ? 0.25 : mark & MARK.null ? 0.5 : 1;
  const room = (height - 10) * share;
  const isDrawn = !(mark & MARK.silent) && sender !== NO_NODE;
  context.fillStyle = isDrawn ? COLOURS[sender % 8] : theme.silent;
  context.fillRect(x, top + height - room, inner, room);
  if (isDrawn && sender >= 8) {
    paintStripes(context, x, top + height - room, inner, room);
  }
  paintMarks(context, theme, mark, x, top, inner);
  if (isLit && lit) {
    context.strokeStyle = theme.lit;
    context.lineWidth = 2;
    context.strokeRect(x + 1, top + 1, Math.max(1, inner - 2), height - 2);
  }
  if (width > 22) {
    // A faded colour is near that of the paper.
    const ink = isDrawn && !isFaded ? (DARK.includes(sender % 8) && sender < 8 ? "#fff" : "#000") : theme.ink;
    const left = Math.max(x, 0) + 3;
    paintText(context, ink, boxTexts(run, cells, cell), left, top + height - 10,
              Math.min(x + inner, view.width) - left - 3);
  }
  context.globalAlpha = 1;
}

/** Paints what went wrong at the top of a box. */
function paintMarks(context, theme, mark, x, top, width) {
  const colour = mark & MARK.collision ? theme.collision : mark & MARK.error ? theme.error : null;
  if (colour) {
    context.fillStyle = colour;
    context.fillRect(x, top, width, 8);
  } else if (mark & MARK.blocked) {
    context.fillStyle = theme.grid;
    context.fillRect(x, top + 5, width, 3);
  }
}

/** Paints the stripes of nodes 8 to 15. */
function paintStripes(context, x, top, width, height) {
  context.fillStyle = "#fff";
  for (let stripe = top + 3; stripe + 3 < top + height; stripe += 9) {
    context.fillRect(x, stripe, width, 3);
  }
}

/** Paints the first of some texts that has room. */
function paintText(context, ink, texts, x, y, room) {
  const text = texts.find((it) => context.measureText(it).width <= room);
  if (text) {
    context.fillStyle = ink;
    context.fillText(text, x, y);
  }
}

/** Returns texts for a box, the longest first: its slot with its sender and what went wrong, or its slot alone. */
function boxTexts(run, cells, cell) {
  const slot = String(run.slots[cells.channel][cells.window[cell]] || "");
  if (cells.sender[cell] === NO_NODE) {
    return [slot];
  }
  const front = `${slot}: ${nodeName(run, cells.sender[cell])}`;
  const sign = cells.mark[cell] & MARK.collision ? ", collided" : cells.mark[cell] & MARK.null ? ", null frame" : "";
  return [front + sign, front, slot];
}

/** Paints a mark for each call of the chosen way, at the start of its cycle. */
function paintCalls(context, {view, theme, calls, height}) {
  for (const {time, text} of calls) {
    const x = pixelOf(view, time);
    context.fillStyle = theme.lit;
    context.fillRect(x, 40, 2, height - 40);
    context.fillText(text, x + 5, 47);
  }
}

/** Paints the names of the lanes. */
function paintLabels(context, {run, theme, lanes}) {
  for (const {cells, top, height} of lanes) {
    context.fillStyle = theme.ink;
    context.fillText(`Channel ${CHANNELS[cells.channel]}`, 8, top + height / 2 - (cells.node === null ? 0 : 8));
    if (cells.node !== null) {
      context.fillText(`at ${nodeName(run, cells.node)}`.slice(0, 20), 8, top + height / 2 + 8);
    }
  }
}
