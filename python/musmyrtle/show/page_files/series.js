"use strict";

/**
 * A signal over time: as it was committed, and as each receiver has it. The page of a recording has the frames of each
 * channel in place of both.
 * @typedef {{node: number, buffer: number, layout: Layout, signal: Signal, text: string}} Choosable
 * @typedef {{time: number, window: number, channel: number, read: ?Read}} Step a value from a time on; the window is -1
 *           for a commit, and the time is that of its cycle
 * @typedef {{label: string, node: ?number, isCommitted: boolean, steps: Step[], losses: Step[]}} Series
 */

/** The bytes of a frame before and after its payload. */
const HEADER_BYTES = 5;
const TRAILER_BYTES = 3;
const COUNTS = 64;

/** Returns the signals that can be chosen, in the order of their senders. */
function choosableOf(run) {
  const layouts = run.header.signals.frames.map((it) => new Layout(it));
  return run.header.signals.senders.flatMap(([node, buffer, frame]) => layouts[frame].signals.map((signal) => ({
    node, buffer, layout: layouts[frame], signal,
    text: `${nodeName(run, node)} ${bufferName(run, node, buffer)}: ${cut(signal.name)}${unitText(signal)}`,
  })));
}

/** Returns the unit of a signal in brackets, or nothing without one. */
function unitText(signal) {
  return signal.unit ? ` [${cut(signal.unit)}]` : "";
}

/** Returns the cycle count of a cycle, or null where a recording doesn't have it. */
function countOfCycle(run, cycle) {
  return run.isRecording ? run.number("cycle_count", cycle, "u8") : cycle % COUNTS;
}

/** Returns whether a buffer or a FIFO admits a slot on a channel in a cycle count. */
function isAdmitted(it, slot, channel, count) {
  const hasSlot = "slot" in it ? it.slot === slot : it.first <= slot && slot <= it.last;
  return hasSlot && it.channels.includes(CHANNELS[channel]) && count % it.repetition === it.base;
}

/** Reads one signal of a frame. Equal payloads are read once. */
class Reader {
  /** @param {Choosable} chosen */
  constructor({layout, signal}) {
    this.layout = layout;
    this.signal = signal;
    this.known = new Map();
  }

  /** Returns the signal of a payload, or null if the payload hasn't it. */
  read(payload) {
    const key = String.fromCharCode(...payload.subarray(0, this.layout.bytes));
    if (!this.known.has(key)) {
      this.known.set(key, this.layout.read(this.signal, payload));
    }
    return this.known.get(key);
  }
}

/** Returns the bytes of a column at a place. */
function heldBytes(run, column, place) {
  const start = run.starts[column];
  return run.columns[`${column}_bytes`].subarray(start[place], start[place + 1]);
}

/** Returns the payload of a frame that arrived in a window, or null. A null frame has none. */
function arrivedPayload(run, window, channel) {
  for (const line of run.linesAt(window, channel)) {
    const isFrame = run.word("record_passed", line) === "passed" && run.word("record_flags", line)[1] === "-";
    if (isFrame && (run.isRecording || run.word("record_end", line) === run.header.arrived)) {
      const frame = heldBytes(run, "record_data", line);
      return run.isRecording ? frame : frame.subarray(HEADER_BYTES, frame.length - TRAILER_BYTES);
    }
  }
  return null;
}

// ---- commits

/** Returns the commits of the buffer of a choosable signal. */
function commitsOf(run, {node, buffer}) {
  const its = run.columns;
  return Array.from(its.commit_node.keys()).filter((it) => its.commit_node[it] === node
    && its.commit_buffer[it] === buffer);
}

/** Returns the signal as it was committed. */
function committedSeries(run, commits, reader) {
  const steps = commits.map((commit) => ({
    time: run.beginOf(run.columns.commit_cycle[commit]), window: -1, channel: 0,
    read: reader.read(heldBytes(run, "commit_data", commit)),
  }));
  return {label: "committed", node: null, isCommitted: true, steps: steps.sort(byTime), losses: []};
}

/** Compares steps by their times. */
function byTime(one, other) {
  return one.time - other.time;
}

/** Returns the transmissions of commits that have a window. */
function transmissionsOf(run, commits) {
  return commits.flatMap((commit) => sendsOf(run, commit).map((sent) => {
    const {window, channel} = sentAt(run, sent);
    return {commit, window, channel, cycle: run.columns.sent_cycle[sent], receivers: run.word("sent_receivers", sent)};
  })).filter((it) => it.window >= 0);
}

// ---- receivers

/** Returns the receive buffers and FIFOs of other nodes that may store the frames of a buffer, each with its words. */
function destinationsOf(run, {node, buffer}) {
  const its = run.header.nodes[node].buffers[buffer];
  const counts = Array.from({length: COUNTS}, (_, count) => count).filter((it) => it % its.repetition === its.base);
  const isMeeting = (it) => CHANNELS.some((name, channel) => its.channels.includes(name)
    && counts.some((count) => isAdmitted(it, its.slot, channel, count)));
  const found = [];
  run.header.nodes.forEach(({buffers}, receiver) => {
    if (receiver === node) {
      return;
    }
    const own = buffers.map((it, number) => ({...it, node: receiver, buffer: number, word: `b${number}`, before: []}))
      .filter((it) => it.kind === "receive" && isMeeting(it));
    const fifos = run.header.signals.fifos.filter((it) => it.node === receiver && isMeeting(it))
      .map((it) => ({...it, buffer: null, word: "queue", before: own}));
    found.push(...own, ...fifos);
  });
  return found;
}

/** Returns the signal as a receiver has it, with the windows in which its frames were lost. */
function receivedSeries(run, chosen, destination, sends, reader) {
  const stored = run.hasSeen ? storedSteps(run, chosen, destination, reader)
    : heardSteps(run, destination, sends, reader);
  const got = new Set(stored.map(({cycle}) => cycle));
  const losses = new Map();
  for (const it of sends) {
    const isDue = isAdmittedBy(run, chosen, destination, it);
    if (isDue && !got.has(it.cycle) && !losses.has(it.cycle)) {
      losses.set(it.cycle, {time: run.columns.window_begin[it.window], window: it.window, channel: it.channel,
                            read: null});
    }
  }
  return {label: receiverName(run, destination), node: destination.node, isCommitted: false, steps: stored.sort(byTime),
          losses: [...losses.values()].sort(byTime)};
}

/** Returns whether a receiver is due to store a transmission. A FIFO isn't where a buffer of its node is. */
function isAdmittedBy(run, chosen, destination, {cycle, channel}) {
  const {slot} = run.header.nodes[chosen.node].buffers[chosen.buffer];
  const count = countOfCycle(run, cycle);
  return isAdmitted(destination, slot, channel, count)
    && !destination.before.some((it) => isAdmitted(it, slot, channel, count));
}

/** Returns what a receiver stored, by what each node received in each window. */
function storedSteps(run, chosen, destination, reader) {
  const its = run.header.nodes[chosen.node].buffers[chosen.buffer];
  const places = run.columns.stored_place;
  const first = below(places, run.seenPlace(destination.node, 0, 0) - 1);
  const last = below(places, run.seenPlace(destination.node + 1, 0, 0) - 1);
  const found = [];
  for (let place = first; place < last; place += 1) {
    const [window, channel] = [places[place] % (2 * run.windows) >> 1, places[place] & 1];
    const cycle = run.columns.window_cycle[window];
    if (isAdmitted(its, run.slots[channel][window], channel, countOfCycle(run, cycle))
        && run.word("stored_by", place).split(",").includes(destination.word)) {
      const payload = arrivedPayload(run, window, channel);
      found.push({time: run.columns.window_begin[window], window, channel, cycle,
                  read: payload && reader.read(payload)});
    }
  }
  return found;
}

/** Returns what a receiver stored, by the receivers of commits, where the page has no observations. */
function heardSteps(run, destination, sends, reader) {
  const word = `${destination.node}:${destination.word}`;
  return sends.filter((it) => it.receivers.split(",").includes(word)).map(({commit, window, channel, cycle}) => ({
    time: run.columns.window_begin[window], window, channel, cycle,
    read: reader.read(heldBytes(run, "commit_data", commit)),
  }));
}

// ---- recordings

/** Returns the signal in the frames of a channel of a recording, with the windows without a good frame. */
function recordedSeries(run, chosen, channel, reader) {
  const its = run.header.nodes[chosen.node].buffers[chosen.buffer];
  const found = {label: `channel ${CHANNELS[channel]}`, node: chosen.node, isCommitted: false, steps: [], losses: []};
  for (let window = 0; window < run.windows; window += 1) {
    const count = countOfCycle(run, run.columns.window_cycle[window]);
    if (count === null || !isAdmitted(its, run.slots[channel][window], channel, count)) {
      continue;
    }
    const payload = arrivedPayload(run, window, channel);
    const step = {time: run.columns.window_begin[window], window, channel, read: payload && reader.read(payload)};
    const isLost = run.linesAt(window, channel).some((it) => run.word("record_passed", it) !== "passed");
    if (payload) {
      found.steps.push(step);
    } else if (isLost) {
      found.losses.push(step);
    }
  }
  return found;
}

/** Returns all series of a choosable signal. Receivers that are alike stay apart. */
function seriesOf(run, chosen) {
  const reader = new Reader(chosen);
  if (run.isRecording) {
    const {channels} = run.header.nodes[chosen.node].buffers[chosen.buffer];
    return CHANNELS.flatMap((name, it) => (channels.includes(name) ? [recordedSeries(run, chosen, it, reader)] : []));
  }
  const commits = commitsOf(run, chosen);
  const sends = transmissionsOf(run, commits);
  return [committedSeries(run, commits, reader),
          ...destinationsOf(run, chosen).map((it) => receivedSeries(run, chosen, it, sends, reader))];
}

/** Returns the number of different committed values of each choosable signal. */
function changesOf(run, choosable) {
  const byBuffer = new Map();
  for (let commit = 0; commit < run.columns.commit_node.length; commit += 1) {
    const key = bufferNumber(run.columns.commit_node[commit], run.columns.commit_buffer[commit]);
    byBuffer.set(key, byBuffer.get(key) || []);
    byBuffer.get(key).push(commit);
  }
  return choosable.map((it) => {
    const reader = new Reader(it);
    const reads = (byBuffer.get(bufferNumber(it.node, it.buffer)) || [])
      .map((commit) => reader.read(heldBytes(run, "commit_data", commit)));
    return new Set(reads.filter(Boolean).map((read) => String(read.raw))).size;
  });
}
