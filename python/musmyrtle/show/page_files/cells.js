"use strict";

/** What a cell shows, as bits. */
const MARK = {data: 1, null: 2, error: 4, collision: 8, blocked: 16, silent: 32, babble: 64};
const NO_NODE = 0xff;

/**
 * The cells of a lane in the order of time: the static slots of a channel, and its dynamic slots with a transmission.
 * @typedef {{channel: number, node: ?number, window: Uint32Array, begin: Uint32Array, end: Uint32Array,
 *            mark: Uint8Array, sender: Uint8Array, busy: Float64Array, errors: Uint32Array,
 *            collisions: Uint32Array}} Cells
 */

/**
 * Returns the marks and the sender of what was on a channel in a window.
 * @param {Run} run
 * @param {number[]} lines lines of the record
 * @returns {{mark: number, sender: number}} the sender is the first node whose transmission passed
 */
function sightOf(run, lines) {
  let mark = 0;
  let sender = NO_NODE;
  for (const line of lines) {
    mark |= markOf(run, line);
    if (run.word("record_passed", line) === "passed" && sender === NO_NODE) {
      sender = run.columns.record_node[line];
      mark |= run.word("record_flags", line)[1] === "n" ? MARK.null : MARK.data;
    }
  }
  return {mark: sender === NO_NODE ? mark | MARK.silent : mark, sender};
}

/** Returns the marks of one line of the record, by its kind and its end. */
function markOf(run, line) {
  if (!run.marks) {
    const {marks} = run.header;
    run.marks = run.words.record_what.map((what) => run.words.record_end.map((end) => bitsOf(marks[what], end)));
  }
  return run.marks[run.columns.record_what[line]][run.columns.record_end[line]];
}

/** Returns the marks of a word in a table, which may have some for all other words. */
function bitsOf(table, word) {
  return (table[word] || table.other || []).reduce((bits, it) => bits | MARK[it], 0);
}

/**
 * Returns the cells of a channel. A fault for a bit in a window without a slot of the channel has none: the window is
 * within the frame of an earlier slot, or after the last one.
 * @param {Run} run
 * @param {number} channel 0 for A, 1 for B
 * @returns {Cells}
 */
function cellsOf(run, channel) {
  const found = {window: [], begin: [], end: [], mark: [], sender: []};
  for (let window = 0; window < run.windows; window += 1) {
    const isStatic = run.columns.window_minislot[window] === 0;
    const lines = run.linesAt(window, channel);
    if (!isStatic && (!lines.length || !run.slots[channel][window])) {
      continue;
    }
    const begin = run.columns.window_begin[window];
    const {mark, sender} = sightOf(run, lines);
    found.window.push(window);
    found.begin.push(begin);
    found.end.push(begin + run.lengths[channel][window]);
    found.mark.push(mark);
    found.sender.push(sender);
  }
  return summed({
    channel, node: null, window: Uint32Array.from(found.window), begin: Uint32Array.from(found.begin),
    end: Uint32Array.from(found.end), mark: Uint8Array.from(found.mark), sender: Uint8Array.from(found.sender),
  });
}

/**
 * Returns the cells of a channel as a node received it.
 * @param {Run} run
 * @param {Cells} cells those of the channel
 * @param {number} node
 * @returns {Cells}
 */
function cellsSeen(run, cells, node) {
  const marks = run.words.seen_state.map((it) => seenMark(run, it));
  const mark = new Uint8Array(cells.window.length);
  for (let cell = 0; cell < mark.length; cell += 1) {
    const place = run.seenPlace(node, cells.window[cell], cells.channel);
    const its = marks[run.columns.seen_state[place]];
    mark[cell] = its === MARK.data ? cells.mark[cell] & MARK.null || MARK.data : its;
  }
  return summed({...cells, node, mark});
}

/** Returns the marks of a word for what a node received and what it counted. */
function seenMark(run, word) {
  const [seen, counted] = word.split(" ");
  return bitsOf(run.header.seen_marks, seen) | bitsOf(run.header.counted_marks, counted);
}

/** Adds sums before each cell: macroticks with traffic, errors and collisions. */
function summed(cells) {
  const count = cells.window.length;
  const busy = new Float64Array(count + 1);
  const errors = new Uint32Array(count + 1);
  const collisions = new Uint32Array(count + 1);
  for (let cell = 0; cell < count; cell += 1) {
    const mark = cells.mark[cell];
    busy[cell + 1] = busy[cell] + (mark & MARK.silent ? 0 : cells.end[cell] - cells.begin[cell]);
    errors[cell + 1] = errors[cell] + (mark & MARK.error ? 1 : 0);
    collisions[cell + 1] = collisions[cell] + (mark & MARK.collision ? 1 : 0);
  }
  return {...cells, busy, errors, collisions};
}

/** Returns for each number of cells how many of the first are lit, by the mask of lit windows and channels. */
function litSums(cells, lit) {
  const found = new Uint32Array(cells.window.length + 1);
  for (let cell = 0; cell < cells.window.length; cell += 1) {
    found[cell + 1] = found[cell] + lit[2 * cells.window[cell] + cells.channel];
  }
  return found;
}
