"use strict";

/** The details of windows, cycles, slots and fault lines. */

/** Returns where and when a window is on a channel. */
function placeText(run, window, channel) {
  const slot = run.slots[channel][window];
  const minislot = run.columns.window_minislot[window];
  const place = slot ? `Slot ${slot} on ${CHANNELS[channel]}` : `${CHANNELS[channel]} without a slot`;
  const cycle = cycleText(run, run.columns.window_cycle[window]);
  return `${place} in cycle ${cycle}${minislot ? `, minislot ${minislot}` : ""}`;
}

/** Returns the place of a window, with a line for each transmission, for the pointer. */
function hoverText(run, window, channel) {
  const lines = run.linesAt(window, channel).filter((it) => run.word("record_what", it) !== "corrupt");
  return [placeText(run, window, channel), ...lines.map((it) => `${nodeName(run, run.columns.record_node[it])}: `
    + `${whatText(run, it)}, ${endText(run, run.word("record_end", it))}`)].join("\n");
}

/** Returns the details of a window on a channel: its transmissions, and what each node received. */
function detailsOfWindow(run, window, channel) {
  const details = emptyDetails(placeText(run, window, channel));
  const begin = run.columns.window_begin[window];
  const length = run.lengths[channel][window];
  const lines = run.linesAt(window, channel);
  details.facts = [`It begins at ${timeText(run, begin)} and takes ${timeText(run, length)}.`,
                   linesText(run, lines)];
  details.tables = [sendsTable(run, lines), receivedTable(run, window, channel)];
  details.line = run.isRecording ? "" : lines.map((it) => recordLine(run, it)).join("\n");
  details.lit.places = [2 * window + channel];
  details.span = [begin, begin + Math.max(1, length)];
  for (let node = 0; node < run.nodes; node += 1) {
    if (run.storedBy(node, window, channel)) {
      details.lit.nodes.set(node, "receives");
    }
  }
  lines.filter((it) => run.word("record_what", it) !== "corrupt")
    .forEach((it) => details.lit.nodes.set(run.columns.record_node[it], run.isRecording ? "configured" : "sends"));
  return details;
}

/** Returns how many lines of the record a window has, or how many records of a recording. */
function linesText(run, lines) {
  if (run.isRecording) {
    const count = lines.filter((it) => run.columns.record_number[it] !== NO_RECORD).length;
    return count ? `It has ${counted(count, "record")}.` : "Nothing was recorded.";
  }
  return lines.length ? `It has ${counted(lines.length, "line")} in the record.` : "Nothing was sent.";
}

/** Returns the table of what was sent, or recorded. */
function sendsTable(run, lines) {
  return carriedTable(run, run.isRecording ? "Records" : "Transmissions", lines);
}

/** Returns a table of lines of the record. */
function carriedTable(run, caption, lines) {
  if (run.isRecording) {
    return recordedTable(run, caption, lines);
  }
  return {caption, head: ["cycle", "at", "slot", "channel", "node", "what", "what came of it", "bytes", "commit",
                          "fault"], rows: new Rows(lines, (it) => carriedRow(run, it))};
}

/** Returns the row of a line of the record. */
function carriedRow(run, line) {
  const window = run.columns.record_window[line];
  const channel = run.channelOf(line);
  const slot = run.slots[channel][window];
  const isBit = run.word("record_what", line) === "corrupt";
  const commit = isBit ? null : commitOf(run, line);
  return [
    link(String(run.columns.window_cycle[window]), "window", window, channel),
    timeText(run, run.columns.window_begin[window]), slot ? link(String(slot), "slot", slot) : "none",
    CHANNELS[channel], isBit ? "" : link(nodeName(run, run.columns.record_node[line]), "node",
                                         run.columns.record_node[line]),
    whatText(run, line), isBit ? "" : endText(run, run.word("record_end", line)),
    isBit ? "" : run.bytes("record_data", line),
    commit === null ? "" : link(`cycle ${run.columns.commit_cycle[commit]}`, "commit", commit), faultCell(run, line)];
}

/** Returns the kind of a line of the record: a data frame, a null frame, a babble, or a bit that a fault names. */
function whatText(run, line) {
  const what = run.word("record_what", line);
  if (what === "corrupt") {
    return `fault for bit ${run.columns.record_bit[line]}`;
  }
  if (what === "missing" || what === "broken") {
    return what === "missing" ? "no frame" : "broken record";
  }
  const flags = run.word("record_flags", line);
  const frame = flags === "-" ? "bytes that are no frame" : flags[1] === "n" ? "null frame" : "data frame";
  return what === "babble" ? `babble, ${frame}` : frame;
}

/** Returns the cell for the fault line that caused a line of the record. */
function faultCell(run, line) {
  const number = run.number("record_line", line, "u16");
  const fault = run.header.faults.findIndex((it) => it.line === number);
  return fault < 0 ? "" : link(run.header.faults[fault].name, "fault", fault);
}

/** Returns the table of what each node received in a window on a channel. */
function receivedTable(run, window, channel) {
  const rows = [];
  for (let node = 0; node < run.nodes && run.hasSeen; node += 1) {
    const {seen, counted} = run.seen(node, window, channel);
    const stored = run.storedBy(node, window, channel);
    rows.push([link(nodeName(run, node), "node", node), seen, counted === "-" ? "" : counted,
               stored === null ? "" : storedText(run, node, stored)]);
  }
  return {caption: "What each node received", head: ["node", "observation", "counted as", "stored in"], rows};
}

/** Returns the names of buffers that stored a frame, from a word such as `b0,b2` or `queue`. */
function storedText(run, node, word) {
  return word.split(",").map((it) => (it === "queue" ? "FIFO" : bufferName(run, node, Number(it.slice(1))))).join(", ");
}

// ---- a cycle

/** Returns the details of a cycle: when it is, and what was sent in it. */
function detailsOfCycle(run, cycle) {
  const details = emptyDetails(`Cycle ${cycleText(run, cycle)}`);
  const begin = run.beginOf(cycle);
  const first = run.firstOfWindow[run.firstOfCycle[cycle]];
  const lines = Array.from({length: run.firstOfWindow[run.firstOfCycle[cycle + 1]] - first}, (_, it) => first + it);
  details.facts = [`It begins at ${timeText(run, begin)} and takes ${timeText(run, run.lengthOf(cycle))}.`];
  details.tables = [sendsTable(run, lines)];
  details.span = [begin, run.beginOf(cycle + 1)];
  return details;
}

// ---- a slot

/** Returns the details of a slot: who owns it or may send in it, and what it carried in each cycle. */
function detailsOfSlot(run, slot) {
  const details = emptyDetails(`Slot ${slot}`);
  const senders = run.header.plan.filter((it) => Number(it[1]) === slot);
  details.facts = senders.map(([kind, , channel, node, base, repetition]) => (
    `On ${channel} ${kind === "slot" ? "it is owned by" : "it may be used by"} ${nodeName(run, Number(node))} in `
    + `${cyclesText(Number(base), Number(repetition))}.`));
  senders.forEach((it) => details.lit.nodes.set(Number(it[3]), "sends"));
  if (!senders.length) {
    details.facts.push("No node owns it or has a transmit buffer for it.");
  }
  const lines = [];
  for (let cycle = 0; cycle < run.header.cycles; cycle += 1) {
    CHANNELS.forEach((_, channel) => {
      const window = run.windowOf(cycle, slot, channel);
      if (window >= 0) {
        lines.push(...run.linesAt(window, channel));
        details.lit.places.push(2 * window + channel);
      }
    });
  }
  if (!run.isRecording) {
    // A recording doesn't say whether a slot opened in a cycle without records.
    details.facts.push(openedText(run, slot, details.lit.places));
  }
  details.tables = [carriedTable(run, "What it carried", lines)];
  return details;
}

/** Returns in how many cycles a slot opened on each channel of a run. */
function openedText(run, slot, places) {
  const counts = CHANNELS.map((_, channel) => places.filter((it) => (it & 1) === channel).length);
  return `It opened in ${counted(counts[0], "cycle")} on A and in ${counted(counts[1], "cycle")} on B, of `
    + `${run.header.cycles}.`;
}

// ---- a fault line

/** Returns the lines of the record in which a fault line took effect. */
function effectsOf(run, fault) {
  if (!run.effects) {
    const faults = new Map(run.header.faults.map((it, place) => [it.line, place]));
    run.effects = run.header.faults.map(() => []);
    for (let line = 0; line < run.columns.record_window.length; line += 1) {
      const its = faults.get(run.columns.record_line[line]);
      if (its !== undefined && run.columns.record_effect[line]) {
        run.effects[its].push(line);
      }
    }
  }
  return run.effects[fault];
}

/** Returns the number of windows in which a fault line took effect. One on both channels is one window. */
function effectText(run, fault) {
  const windows = new Set(effectsOf(run, fault).map((it) => run.columns.record_window[it]));
  return counted(windows.size, "window");
}

/** Returns the name of a fault line with its words. */
function faultText(run, fault) {
  return `${run.header.faults[fault].name}: ${faultWords(run, fault)}`;
}

/** Returns the words of a fault line with the name of its node. */
function faultWords(run, fault) {
  const [kind, ...rest] = run.header.faults[fault].words;
  const shown = kind === "corrupt" ? rest : [nodeName(run, Number(rest[0])), ...rest.slice(1)];
  return `${kind} ${shown.join(" ")}`;
}

/** Returns the details of a fault line: each window in which it took effect. */
function detailsOfFault(run, fault) {
  const details = emptyDetails(`${run.header.faults[fault].title}: ${faultWords(run, fault)}`);
  const lines = effectsOf(run, fault);
  const isIdle = run.header.idle.includes(run.header.faults[fault].line);
  details.facts = [isIdle ? "It had no effect in the whole run."
    : `It took effect in ${effectText(run, fault)}.`];
  details.tables = [carriedTable(run, "Where it took effect", lines)];
  details.lit.places = lines.map((it) => 2 * run.columns.record_window[it] + run.channelOf(it));
  const [kind, node] = run.header.faults[fault].words;
  if (kind !== "corrupt") {
    details.lit.nodes.set(Number(node), "disturbs");
  }
  return details;
}

/** The details of each kind of choice. */
const DETAILS = {
  node: (run, it) => detailsOfNode(run, it.number), buffer: (run, it) => detailsOfBuffer(run, it.number),
  commit: (run, it) => detailsOfCommit(run, it.number), slot: (run, it) => detailsOfSlot(run, it.number),
  window: (run, it) => detailsOfWindow(run, it.number, it.channel), fault: (run, it) => detailsOfFault(run, it.number),
  cycle: (run, it) => detailsOfCycle(run, it.number),
};

/** Short texts for each kind of choice, as in a list of what a search found. */
const TEXTS = {
  node: (run, {number}) => nodeName(run, number), buffer: (run, {number}) => receiverName(run, bufferAt(number)),
  commit: (run, {number}) => commitText(run, number), slot: (_, {number}) => `slot ${number}`,
  window: (run, {number, channel}) => placeText(run, number, channel), fault: (run, {number}) => faultText(run, number),
  cycle: (run, {number}) => `cycle ${cycleText(run, number)}`,
};

/** Returns the node, buffer, cycle and bytes of a commit. */
function commitText(run, commit) {
  const node = run.columns.commit_node[commit];
  return `${nodeName(run, node)} ${bufferName(run, node, run.columns.commit_buffer[commit])}, cycle `
    + `${run.columns.commit_cycle[commit]}: ${run.bytes("commit_data", commit)}`;
}
