"use strict";

/** More cells than this share of the pixels are drawn as columns of a pixel. */
const DENSE = 0.5;

/** Returns the first cell that ends after a time, or of several that overlap there the first one. */
function firstAfter(cells, time) {
  let cell = below(cells.begin, time);
  while (cell > 0 && cells.end[cell - 1] > time) {
    cell -= 1;
  }
  return cell;
}

/**
 * Returns what a lane shows in a view: boxes, or where cells are narrow a column for each pixel.
 * @param {Cells} cells
 * @param {View} view
 * @returns {{boxes: {cell: number, x: number, width: number}[]}|{columns: {x: number, share: number, errors: number,
 *            collisions: number, first: number, last: number}[]}}
 */
function laneOf(cells, view) {
  const first = firstAfter(cells, view.from);
  const last = below(cells.begin, view.from + view.span);
  const isDense = last - first > DENSE * view.width;
  return isDense ? {columns: columnsOf(cells, view)} : {boxes: boxesOf(cells, view, first, last)};
}

/** Returns the boxes of some cells. */
function boxesOf(cells, view, first, last) {
  const found = [];
  for (let cell = first; cell < last; cell += 1) {
    const x = pixelOf(view, cells.begin[cell]);
    found.push({cell, x, width: Math.max(1, pixelOf(view, cells.end[cell]) - x)});
  }
  return found;
}

/** Returns the macroticks with traffic before a time. */
function busyBefore(cells, time, count) {
  if (!count) {
    return 0;
  }
  const whole = cells.busy[count];
  const last = count - 1;
  return cells.mark[last] & MARK.silent ? whole : whole - Math.max(0, cells.end[last] - time);
}

/** Returns a column for each pixel in which a cell begins. */
function columnsOf(cells, view) {
  const found = [];
  const width = view.span / view.width;
  let first = below(cells.begin, view.from);
  let busy = busyBefore(cells, view.from, first);
  for (let x = 0; x < view.width; x += 1) {
    const until = timeAt(view, x + 1);
    let last = first;
    while (last < cells.begin.length && cells.begin[last] < until) {
      last += 1;
    }
    const after = busyBefore(cells, until, last);
    if (last > first || after > busy) {
      found.push({x, share: Math.min(1, Math.max(0, (after - busy) / width)), first, last,
                  errors: cells.errors[last] - cells.errors[first],
                  collisions: cells.collisions[last] - cells.collisions[first]});
    }
    first = last;
    busy = after;
  }
  return found;
}

// ---- lanes on the canvas

/** The pixels above the lanes: cycles, times, and the calls of a chosen way. */
const AXIS = 56;
const LANE = 64;
const GAP = 22;

/**
 * Returns the lanes of the picture with the pixel at which each begins: a lane for each channel, and what a node
 * received below it.
 * @param {Cells[]} cells
 */
function placedLanes(cells) {
  return cells.map((its, place) => ({cells: its, top: AXIS + place * (LANE + GAP), height: LANE}));
}

/** Returns the height of a picture with so many lanes. */
function heightOf(lanes) {
  return AXIS + lanes * (LANE + GAP);
}

/**
 * Returns the cell at a pixel.
 * @returns {{window: number, channel: number}|null}
 */
function hit(lanes, view, x, y) {
  const lane = lanes.find((it) => y >= it.top && y < it.top + it.height);
  if (!lane || x < 0 || x >= view.width) {
    return null;
  }
  const {cells} = lane;
  const last = below(cells.begin, timeAt(view, x + 1)) - 1;
  for (let cell = last; cell >= 0 && cell > last - 3; cell -= 1) {
    // A narrow cell can be hit a pixel beside it.
    if (cells.end[cell] > timeAt(view, x - 1)) {
      return {window: cells.window[cell], channel: cells.channel};
    }
  }
  return null;
}
