"use strict";

/**
 * What is known about a choice, and what lights up with it.
 * @typedef {{title: string, facts: string[], tables: Table[], line: (string|undefined), lit: Lit,
 *            span: ([number, number]|null)}} Details
 * @typedef {{caption: string, head: string[], rows: Rows|(string|{text: string, choice: Choice})[][]}} Table
 * @typedef {{places: number[], nodes: Map<number, string>, calls: {time: number, text: string}[]}} Lit places are
 *           twice the window, and 1 more for channel B; calls have macroticks
 */

/** The rows of a table that may be long. They are made when they are shown. */
class Rows {
  /**
   * @param {number[]} items what the rows are for
   * @param {function(number): (string|{text: string, choice: Choice})[]} make makes a row
   */
  constructor(items, make) {
    this.items = items;
    this.make = make;
  }

  /** Returns the number of the rows. */
  get length() {
    return this.items.length;
  }

  /** Returns some of the rows. */
  slice(first, last) {
    return this.items.slice(first, last).map((it) => this.make(it));
  }
}

/** Returns details without anything in them. */
function emptyDetails(title) {
  return {title, facts: [], tables: [], lit: {places: [], nodes: new Map(), calls: []}, span: null};
}

/** Returns a cell of a table that opens a choice. */
function link(text, kind, number, channel) {
  return {text, choice: {kind, number, channel}};
}

/** Returns a number with the word for a thing: `1 cycle`, `2 cycles`. */
function counted(count, thing) {
  return `${count.toLocaleString("en")} ${thing}${count === 1 ? "" : "s"}`;
}

/** Returns `every cycle`, or `cycles 1, 5 ..`. */
function cyclesText(base, repetition) {
  return repetition === 1 ? "every cycle" : `cycles ${base}, ${base + repetition} ..`;
}

// ---- a node

/** Returns the details of a node: its counters, commits, calls and buffers. */
function detailsOfNode(run, node) {
  const details = emptyDetails(nodeName(run, node));
  details.facts = counterTexts(run, node);
  details.tables = [commitTable(run, node), callTable(run, node), bufferTable(run, node)];
  details.lit.nodes.set(node, "chosen");
  for (let line = 0; line < run.columns.record_window.length; line += 1) {
    if (run.columns.record_node[line] === node) {
      details.lit.places.push(2 * run.columns.record_window[line] + run.channelOf(line));
    }
  }
  return details;
}

/** Returns a sentence for the counters of a node on each channel, and one for its receive FIFO. */
function counterTexts(run, node) {
  const names = ["valid", ...run.header.errors];
  const found = [];
  for (const line of run.header.nodes[node].outcome) {
    const [front, ...numbers] = line.split(" ");
    if (CHANNELS.includes(front)) {
      found.push(`On ${front} it counted ${names.map((it, place) => `${numbers[place]} ${it}`).join(", ")}.`);
    } else if (front === "queue") {
      found.push(`Its receive FIFO holds ${counted(Number(numbers[0]), "frame")} at the end, and overwrote `
                 + `${numbers[1]}.`);
    }
  }
  return found;
}

/** Returns the table of the commits of a node, or of one of its buffers. */
function commitTable(run, node, buffer = null) {
  const rows = [];
  for (let commit = 0; commit < run.columns.commit_node.length; commit += 1) {
    const isOfBuffer = buffer === null || run.columns.commit_buffer[commit] === buffer;
    if (run.columns.commit_node[commit] === node && isOfBuffer) {
      rows.push([link(`cycle ${run.columns.commit_cycle[commit]}`, "commit", commit),
                 bufferName(run, node, run.columns.commit_buffer[commit]), run.bytes("commit_data", commit),
                 fateText(run, commit)]);
    }
  }
  return {caption: "Commits", head: ["commit", "buffer", "bytes", "what came of it"], rows};
}

/** Returns the fate of a commit in a few words. */
function fateText(run, commit) {
  const why = run.word("commit_why", commit);
  if (why) {
    return why;
  }
  const receivers = new Set();
  sendsOf(run, commit).forEach((sent) => {
    receiversOf(run.word("sent_receivers", sent)).forEach((it) => receivers.add(receiverName(run, it)));
  });
  return `received by ${[...receivers].join(", ")}`;
}

/** Returns the table of the calls of a node that the table of commits doesn't have. */
function callTable(run, node) {
  const rows = [];
  const hasCommits = run.columns.commit_node.length > 0;
  for (let answer = 0; answer < run.columns.answer_node.length; answer += 1) {
    const kind = run.word("answer_kind", answer);
    if (run.columns.answer_node[answer] === node && !(hasCommits && kind === "commit")) {
      const reply = answerLine(run, answer).split(" = ")[1];
      const buffer = run.number("answer_buffer", answer, "u8");
      rows.push([String(run.columns.answer_cycle[answer]), String(run.columns.answer_task[answer]), kind,
                 buffer === null ? "FIFO" : bufferName(run, node, buffer),
                 (kind === "commit" ? `${run.bytes("answer_committed", answer)} as ` : "") + answerText(reply),
                 sourceCell(run, answer)]);
    }
  }
  const caption = hasCommits ? "Other calls of its tasks" : "Calls of its tasks";
  return {caption, head: ["cycle", "task", "call", "buffer", "answer", "commit"], rows};
}

/** Returns the cell for the commit whose frame a call read. */
function sourceCell(run, answer) {
  const commit = run.number("answer_commit", answer, "u32");
  return commit === null ? "" : link(`cycle ${run.columns.commit_cycle[commit]} of `
    + nodeName(run, run.columns.commit_node[commit]), "commit", commit);
}

/** Returns the answer to a call in words. */
function answerText(reply) {
  const words = reply.split(" ");
  if (words.length === 4) {
    return `${words[3]} of cycle count ${words[0]}, slot ${words[1]}, channel ${words[2]}`;
  }
  return reply === "-" ? "nothing" : `entry ${reply}`;
}

/** Returns the table of the buffers of a node. */
function bufferTable(run, node) {
  const {buffers, outcome} = run.header.nodes[node];
  const rows = buffers.map((it, number) => {
    const slot = link(String(it.slot), "slot", it.slot);
    const name = link(bufferName(run, node, number), "buffer", bufferNumber(node, number));
    return [name, it.kind, slot, it.channels, cyclesText(it.base, it.repetition),
            heldText(outcome.find((line) => line.startsWith(`rx ${number} `)))];
  });
  if (run.header.nodes[node].has_fifo) {
    rows.push([link("receive FIFO", "buffer", bufferNumber(node, FIFO)), "receive", "", "", "", ""]);
  }
  return {caption: "Buffers", head: ["buffer", "kind", "slot", "channels", "cycles", "at the end"], rows};
}

/** Returns what a receive buffer holds, from its line in the outcome; nothing for a transmit buffer. */
function heldText(line) {
  if (!line) {
    return "";
  }
  const [, , place, bytes] = line.split(" ");
  const [entry, channel] = place.split(":");
  return place === "-" ? "holds nothing" : `holds ${bytes}, received on ${channel} (entry ${entry})`;
}

// ---- a commit

/** Returns the details of a commit, whose way lights up: its call, the windows in which it was sent, and receivers. */
function detailsOfCommit(run, commit) {
  const its = run.columns;
  const node = its.commit_node[commit];
  const cycle = its.commit_cycle[commit];
  const buffer = its.commit_buffer[commit];
  const details = emptyDetails(`Commit of ${nodeName(run, node)} in cycle ${cycle}`);
  const {slot, channels} = run.header.nodes[node].buffers[buffer];
  details.facts = [
    `Call: task ${its.commit_task[commit]} wrote ${run.bytes("commit_data", commit)} to `
    + `${bufferName(run, node, buffer)} in cycle ${cycle}. It is entry ${its.commit_entry[commit]} of the node's `
    + "journal.",
    `Slot: ${slot} on ${channels}.`, `Result: ${fateText(run, commit)}.`];
  details.line = commitLine(run, commit);
  details.lit.calls = [{time: run.beginOf(cycle), text: "call"}];
  const ended = run.number("commit_ended", commit, "u32");
  if (ended !== null) {
    details.lit.calls.push({time: run.beginOf(ended), text: run.word("commit_fate", commit)});
  }
  details.tables = [sentTable(run, commit, details), readTable(run, commit, details)];
  details.lit.nodes.set(node, "sends");
  return details;
}

/** Returns the numbers of a commit's transmissions. */
function sendsOf(run, commit) {
  const first = run.firstSent[commit];
  return Array.from({length: run.firstSent[commit + 1] - first}, (_, it) => first + it);
}

/** Returns the window and the channel of a commit's transmission. */
function sentAt(run, sent) {
  const channel = CHANNELS.indexOf(run.word("sent_channel", sent));
  return {window: run.windowOf(run.columns.sent_cycle[sent], run.columns.sent_slot[sent], channel), channel};
}

/** Returns the table of a commit's transmissions, and adds them to what lights up. */
function sentTable(run, commit, details) {
  const cycle = run.columns.commit_cycle[commit];
  const start = run.beginOf(cycle);
  const rows = [];
  details.span = [start, run.beginOf(cycle + 1)];
  for (const sent of sendsOf(run, commit)) {
    const slot = run.columns.sent_slot[sent];
    const {window, channel} = sentAt(run, sent);
    const begin = run.columns.window_begin[window];
    const receivers = receiversOf(run.word("sent_receivers", sent));
    receivers.forEach((it) => details.lit.nodes.set(it.node, "receives"));
    details.lit.places.push(2 * window + channel);
    if (!rows.length) {
      // The cycles from the call to the first transmission.
      details.span = [start, run.beginOf(run.columns.sent_cycle[sent] + 1)];
    }
    rows.push([link(`cycle ${run.columns.sent_cycle[sent]}`, "window", window, channel), timeText(run, begin),
               timeText(run, begin - start), link(String(slot), "slot", slot), CHANNELS[channel],
               endText(run, run.word("sent_end", sent)),
               receivers.map((it) => receiverName(run, it)).join(", ") || "none"]);
  }
  return {caption: "Transmissions", head: ["sent in", "at", "after the start of the commit's cycle", "slot", "channel",
                                           "what came of it", "receivers"], rows};
}

/** Returns the table of the calls that read a commit, and adds them to what lights up. */
function readTable(run, commit, details) {
  const rows = [];
  for (let answer = 0; answer < run.columns.answer_node.length; answer += 1) {
    if (run.number("answer_commit", answer, "u32") === commit) {
      const node = run.columns.answer_node[answer];
      const cycle = run.columns.answer_cycle[answer];
      const kind = run.word("answer_kind", answer);
      const time = run.beginOf(cycle);
      details.lit.calls.push({time, text: kind});
      rows.push([link(nodeName(run, node), "node", node), String(run.columns.answer_task[answer]), `cycle ${cycle}`,
                 kind, receiverName(run, {node, buffer: run.number("answer_buffer", answer, "u8")}),
                 timeText(run, time), timeText(run, time - run.beginOf(run.columns.commit_cycle[commit]))]);
    }
  }
  return {caption: "Calls that read it", head: ["node", "task", "called in", "call", "buffer", "at",
                                                "after the start of the commit's cycle"], rows};
}

/** Returns the commit that a line of the record carried, or null. */
function commitOf(run, line) {
  if (!run.commitsByPlace) {
    run.commitsByPlace = new Map();
    for (let commit = 0; commit < run.columns.commit_node.length; commit += 1) {
      for (let sent = run.firstSent[commit]; sent < run.firstSent[commit + 1]; sent += 1) {
        run.commitsByPlace.set(placeKey(run.columns.commit_node[commit], run.columns.sent_cycle[sent],
                                        run.columns.sent_slot[sent], run.word("sent_channel", sent)), commit);
      }
    }
  }
  const window = run.columns.record_window[line];
  const channel = run.channelOf(line);
  if (run.word("record_what", line) !== "offer") {
    return null;
  }
  const key = placeKey(run.columns.record_node[line], run.columns.window_cycle[window], run.slots[channel][window],
                       CHANNELS[channel]);
  const found = run.commitsByPlace.get(key);
  return found === undefined ? null : found;
}

/** Returns a key for the offer of a node in a cycle, slot and channel. */
function placeKey(node, cycle, slot, channel) {
  return `${node} ${cycle} ${slot} ${channel}`;
}
