"use strict";

/** A place in the run with a text: what is chosen if the text is clicked.
 * @typedef {{kind: string, number: number, channel: (number|undefined)}} Choice
 */

/** Returns whether a name or a number is what was typed. */
function isNamed(name, number, wanted) {
  return String(number) === wanted || name !== null && name.toLowerCase().includes(wanted.toLowerCase());
}

/** The searches by what is looked for. Each returns the choices of all that it finds. */
const SEARCHES = {
  node: (run, wanted) => choicesOf(run.nodes, "node", (it) => isNamed(run.header.nodes[it].name, it, wanted)),
  buffer: (run, wanted) => buffersNamed(run, wanted),
  slot: (run, wanted) => usedSlots(run).filter((it) => String(it) === wanted)
    .map((it) => ({kind: "slot", number: it})),
  payload: (run, wanted) => withPayload(run, digitsOf(wanted)),
  bytes: (run, wanted) => withBytes(run, digitsOf(wanted)),
};

/** Returns the hexadecimal digits that were typed. */
function digitsOf(wanted) {
  return wanted.toLowerCase().replace(/^0?x/, "").replace(/[^0-9a-f]/g, "");
}

/** Returns the choices of the numbers below a count that suit. */
function choicesOf(count, kind, suits) {
  const found = [];
  for (let number = 0; number < count; number += 1) {
    if (suits(number)) {
      found.push({kind, number});
    }
  }
  return found;
}

/** Returns the slots in which something was sent, or that have an owner or a sender, in ascending order. */
function usedSlots(run) {
  if (!run.usedSlots) {
    const slots = new Set(run.header.plan.map((it) => Number(it[1])));
    for (let line = 0; line < run.columns.record_window.length; line += 1) {
      slots.add(run.slots[run.channelOf(line)][run.columns.record_window[line]]);
    }
    slots.delete(0);
    run.usedSlots = [...slots].sort((one, other) => one - other);
  }
  return run.usedSlots;
}

/** Returns whether bytes, spelled as `x0a0b`, have some digits from the start of a byte on. */
function haveDigits(bytes, digits) {
  let at = bytes.indexOf(digits, 1);
  while (at >= 0 && at % 2 === 0) {
    at = bytes.indexOf(digits, at + 1);
  }
  return at >= 0;
}

/**
 * Returns the choices of commits with these digits in their payload, of the frames that carried them, and of bytes with
 * them that are no frame. A recording has the payloads of its frames.
 */
function withPayload(run, digits) {
  if (!digits) {
    return [];
  }
  const commits = choicesOf(run.columns.commit_node.length, "commit",
                            (it) => haveDigits(run.bytes("commit_data", it), digits));
  const wanted = new Set(commits.map((it) => it.number));
  return [...commits, ...linesWith(run, (line) => {
    const isSearched = run.isRecording || run.number("record_frame", line, "u16") === null;
    return isSearched ? haveBytes(run, line, digits) : wanted.has(commitOf(run, line));
  })];
}

/** Returns the choices of lines of the record with these digits in any of their bytes, as in headers and CRCs. */
function withBytes(run, digits) {
  return digits ? linesWith(run, (line) => haveBytes(run, line, digits)) : [];
}

/** Returns whether the bytes of a line of the record have some digits. */
function haveBytes(run, line, digits) {
  return run.columns.record_data_size[line] > 0 && haveDigits(run.bytes("record_data", line), digits);
}

/** Returns the choices of the lines of the record that suit. */
function linesWith(run, suits) {
  const found = [];
  for (let line = 0; line < run.columns.record_window.length; line += 1) {
    if (suits(line)) {
      found.push({kind: "window", number: run.columns.record_window[line], channel: run.channelOf(line)});
    }
  }
  return found;
}

/**
 * Returns what a search finds.
 * @param {Run} run
 * @param {string} kind a key of SEARCHES
 * @param {string} text
 * @returns {Choice[]}
 */
function found(run, kind, text) {
  const wanted = text.trim();
  return wanted ? SEARCHES[kind](run, wanted) : [];
}

/**
 * Returns the next cell with a mark after a place, or the one before it, in the order of windows and channels.
 * @param {Cells[]} lanes
 * @param {number} mark
 * @param {number} place twice the window, and 1 more for channel B
 * @param {boolean} isBack
 * @returns {number|null} a place
 */
function nextMarked(lanes, mark, place, isBack) {
  const places = lanes.map((cells) => nextIn(cells, mark, place, isBack)).filter((it) => it !== null);
  if (!places.length) {
    return null;
  }
  return isBack ? Math.max(...places) : Math.min(...places);
}

/** Returns the next place with a mark in one lane, or null. */
function nextIn(cells, mark, place, isBack) {
  const window = place >> 1;
  const first = isBack ? below(cells.window, window + 1) - 1 : below(cells.window, window);
  for (let cell = first; cell >= 0 && cell < cells.window.length; cell += isBack ? -1 : 1) {
    const its = 2 * cells.window[cell] + cells.channel;
    if (cells.mark[cell] & mark && (isBack ? its < place : its > place)) {
      return its;
    }
  }
  return null;
}

/**
 * Returns the errors of each node by parts of the run, as the nodes counted them.
 * @param {Run} run
 * @param {number} most the largest number of parts
 * @returns {{cycles: number, rows: {total: number, counts: number[], first: (Choice|null)[]}[]}} the cycles of a part
 */
function errorTable(run, most) {
  const cycles = Math.ceil(run.header.cycles / most);
  const parts = Math.ceil(run.header.cycles / cycles);
  const rows = Array.from({length: run.nodes}, () => (
    {total: 0, counts: new Array(parts).fill(0), first: new Array(parts).fill(null)}));
  const add = (node, cycle, count, choice) => {
    const part = Math.floor(cycle / cycles);
    rows[node].first[part] = rows[node].first[part] || choice;
    rows[node].counts[part] += count;
    rows[node].total += count;
  };
  (run.hasSeen ? addSeenErrors : addCountedErrors)(run, add);
  return {cycles, rows};
}

/** Adds each error that a node received. */
function addSeenErrors(run, add) {
  const isError = run.words.seen_state.map((it) => isErrorWord(run, it));
  for (let node = 0; node < run.nodes; node += 1) {
    const base = run.seenPlace(node, 0, 0);
    for (let place = 0; place < 2 * run.windows; place += 1) {
      if (isError[run.columns.seen_state[base + place]]) {
        add(node, run.columns.window_cycle[place >> 1], 1, {kind: "window", number: place >> 1, channel: place & 1});
      }
    }
  }
}

/** Adds the errors that nodes counted in each cycle, of a run without observations. */
function addCountedErrors(run, add) {
  const its = run.columns;
  its.counted_node.forEach((node, place) => {
    const cycle = its.counted_cycle[place];
    add(node, cycle, its.counted_errors[place], {kind: "cycle", number: cycle});
  });
}

/** Returns whether a node counts an error for what the word stands for. */
function isErrorWord(run, word) {
  return run.header.errors.includes(word.split(" ")[1]);
}

/** Returns the counts of an error of a node on a channel, for the comparison with its counters. */
function countOf(run, node, channel, error) {
  let count = 0;
  for (let window = 0; window < run.windows; window += 1) {
    count += run.seen(node, window, channel).counted === error ? 1 : 0;
  }
  return count;
}

/** Returns the lines of the record in view, at most MOST, and their number. */
function inView(run, view, most) {
  const begin = below(run.columns.window_begin, view.from);
  const end = below(run.columns.window_begin, view.from + view.span);
  const first = run.firstOfWindow[begin];
  const last = run.firstOfWindow[end];
  const before = linesInto(run, view.from, first);
  const count = before.length + last - first;
  const others = Array.from({length: Math.min(most, last - first)}, (_, it) => first + it);
  return {count, lines: [...before, ...others].slice(0, most)};
}

/** Returns the lines before LINE whose slot lasts beyond a time. */
function linesInto(run, time, line) {
  const ends = latestEnds(run);
  const found = [];
  for (let it = line - 1; it >= 0 && ends[it] > time; it -= 1) {
    if (endOf(run, it) > time) {
      found.push(it);
    }
  }
  return found.reverse();
}

/** Returns the macrotick at which the slot of a line of the record ends. */
function endOf(run, line) {
  const window = run.columns.record_window[line];
  return run.columns.window_begin[window] + run.lengths[run.channelOf(line)][window];
}

/** Returns for each line of the record the latest end of a slot up to it. */
function latestEnds(run) {
  if (!run.latestEnds) {
    run.latestEnds = new Float64Array(run.columns.record_window.length);
    let latest = 0;
    for (let line = 0; line < run.latestEnds.length; line += 1) {
      latest = Math.max(latest, endOf(run, line));
      run.latestEnds[line] = latest;
    }
  }
  return run.latestEnds;
}
