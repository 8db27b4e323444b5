"use strict";

/** The numbers that stand for the absence of one, by the type of a column. */
const NOTHING = {u8: 0xff, u16: 0xffff, u32: 0xffffffff};
const CHANNELS = ["A", "B"];
const LONGEST_LABEL = 40;

/** A run: its windows, the record of the bus, commits, answers, and what each node received. */
class Run {
  /** @param {{header: object, columns: object, words: object}} data unpacked data */
  constructor(data) {
    Object.assign(this, data);
    const its = this.columns;
    this.windows = its.window_begin.length;
    this.nodes = this.header.nodes.length;
    this.slots = CHANNELS.map((it) => its[`window_slot_${it}`]);
    this.lengths = CHANNELS.map((it) => its[`window_length_${it}`]);
    this.starts = {};
    for (const name of ["record_data", "commit_data", "answer_committed", "answer_frame"]) {
      this.starts[name] = beginnings(its[`${name}_size`]);
    }
    /** True of the page of a recording, which has no commits and no calls. */
    this.isRecording = this.header.is_recording === true;
    /** False of a recording, and of a run that is too long to show what each node received. */
    this.hasSeen = its.seen_state.length > 0;
    this.firstSent = beginnings(its.commit_sends);
    this.firstOfWindow = firstLines(its.record_window, this.windows);
    this.firstOfCycle = firstLines(its.window_cycle, this.header.cycles);
    this.length = this.beginOf(this.header.cycles);
  }

  /** Returns the word of a column at a place. */
  word(column, place) {
    return this.words[column][this.columns[column][place]];
  }

  /** Returns the number of a column at a place, or null for the number that stands for nothing. */
  number(column, place, type) {
    const found = this.columns[column][place];
    return found === NOTHING[type] ? null : found;
  }

  /** Returns the bytes of a column at a place, spelled as `x0a0b`. */
  bytes(column, place) {
    const start = this.starts[column];
    const held = this.columns[`${column}_bytes`].subarray(start[place], start[place + 1]);
    let text = "x";
    for (const byte of held) {
      text += byte.toString(16).padStart(2, "0");
    }
    return text;
  }

  /** Returns the number of the channel of a line of the record: 0 for A, 1 for B. */
  channelOf(line) {
    return CHANNELS.indexOf(this.word("record_channel", line));
  }

  /** Returns the lines of the record of a window and channel. */
  linesAt(window, channel) {
    const found = [];
    for (let line = this.firstOfWindow[window]; line < this.firstOfWindow[window + 1]; line += 1) {
      if (this.channelOf(line) === channel) {
        found.push(line);
      }
    }
    return found;
  }

  /** Returns the words for what a node received, and for what it counted. The run has observations. */
  seen(node, window, channel) {
    const [seen, counted] = this.word("seen_state", this.seenPlace(node, window, channel)).split(" ");
    return {seen: seen || "silence", counted: counted || "-"};
  }

  /** Returns the place of an observation in its column, whose first word is no observation. */
  seenPlace(node, window, channel) {
    return 1 + 2 * (node * this.windows + window) + channel;
  }

  /** Returns what stored the frame that a node received, as `b0,b2` or `queue`, or null. */
  storedBy(node, window, channel) {
    const wanted = this.seenPlace(node, window, channel) - 1;
    const place = below(this.columns.stored_place, wanted);
    return this.columns.stored_place[place] === wanted ? this.word("stored_by", place) : null;
  }

  /** Returns the macrotick at which a cycle begins, and at the number of all cycles that at which the run ends. */
  beginOf(cycle) {
    return this.columns.cycle_begin[cycle];
  }

  /** Returns the macroticks of a cycle. */
  lengthOf(cycle) {
    return this.beginOf(cycle + 1) - this.beginOf(cycle);
  }

  /** Returns the window in which a channel had a slot in a cycle, or -1. */
  windowOf(cycle, slot, channel) {
    for (let window = this.firstOfCycle[cycle]; window < this.firstOfCycle[cycle + 1]; window += 1) {
      if (this.slots[channel][window] === slot) {
        return window;
      }
    }
    return -1;
  }
}

/**
 * Returns for each key the first of its entries, which are sorted by key, and the end of the last one.
 * @param {ArrayLike<number>} keys
 * @param {number} count the keys are below it
 * @returns {Uint32Array}
 */
function firstLines(keys, count) {
  const sizes = new Uint32Array(count);
  for (const key of keys) {
    sizes[key] += 1;
  }
  return beginnings(sizes);
}

/** Returns the cycle at a time: the last one that begins by then. */
function cycleAt(run, time) {
  const begins = run.columns.cycle_begin;
  const later = below(begins, time);
  const found = begins[later] === time ? later : later - 1;
  return Math.min(run.header.cycles - 1, Math.max(0, found));
}

// ---- names and times

/** Returns a name, cut where it is long. */
function cut(name) {
  return name.length > LONGEST_LABEL ? `${name.slice(0, LONGEST_LABEL)}..` : name;
}

/** Returns `pedal (0)`, or `node 0` without a name, or with an empty one. */
function nodeName(run, node) {
  const {name, is_nobody: isNobody} = run.header.nodes[node];
  if (isNobody) {
    return "no configured sender";
  }
  return name ? `${cut(name)} (${node})` : `node ${node}`;
}

/** Returns the number of a cycle, and of a recording `3 (count 41)` where a line of the program has the count. */
function cycleText(run, cycle) {
  if (!run.isRecording) {
    return String(cycle);
  }
  const count = run.number("cycle_count", cycle, "u8");
  return `${run.header.first_cycle + cycle}${count === null ? "" : ` (count ${count})`}`;
}

/** Returns `position (1)`, or `buffer 1` without a name, or with an empty one. */
function bufferName(run, node, buffer) {
  const {name} = run.header.nodes[node].buffers[buffer];
  return name ? `${cut(name)} (${buffer})` : `buffer ${buffer}`;
}

/** Returns the node and the buffer of a receiver that `fr_view` spells `1:b1`, or `1:queue` without a buffer. */
function receiverOf(word) {
  const [node, place] = word.split(":");
  return {node: Number(node), buffer: place === "queue" ? null : Number(place.slice(1))};
}

/** Returns the receivers of a word such as `0:b1,2:queue`. */
function receiversOf(word) {
  return word === "-" ? [] : word.split(",").map(receiverOf);
}

/** Returns `brake (1) position (1)`, or `brake (1) FIFO`. */
function receiverName(run, {node, buffer}) {
  return `${nodeName(run, node)} ${buffer === null ? "FIFO" : bufferName(run, node, buffer)}`;
}

/** Returns a time with its unit: microseconds where the cluster file has the length of a macrotick. */
function timeText(run, macroticks) {
  const {scale, unit} = unitOf(run);
  return `${Number((macroticks * scale).toFixed(3)).toLocaleString("en")} ${unit}`;
}

/** Returns the length of a macrotick in the unit of the axis, and the unit. */
function unitOf(run) {
  const microseconds = run.header.macrotick_us;
  return microseconds === null ? {scale: 1, unit: "MT"} : {scale: microseconds, unit: "µs"};
}

/** Returns the words for the fate of a transmission. */
function endText(run, end) {
  return run.header.ends[end] || end;
}
