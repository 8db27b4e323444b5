"use strict";

/** The details of message buffers and receive FIFOs. */

/** The number of a node's receive FIFO among its buffers, of which it has at most 64. */
const FIFO = 64;

/** Returns the choice number of a buffer, or of the receive FIFO. */
function bufferNumber(node, buffer) {
  return node * (FIFO + 1) + buffer;
}

/** Returns the node and the buffer of a choice number; the buffer is null for the receive FIFO. */
function bufferAt(number) {
  const buffer = number % (FIFO + 1);
  return {node: Math.floor(number / (FIFO + 1)), buffer: buffer === FIFO ? null : buffer};
}

/** Returns the choices of the buffers with a name or number. */
function buffersNamed(run, wanted) {
  const found = [];
  run.header.nodes.forEach(({buffers}, node) => buffers.forEach(({name}, buffer) => {
    if (isNamed(name, buffer, wanted)) {
      found.push({kind: "buffer", number: bufferNumber(node, buffer)});
    }
  }));
  return found;
}

/** Returns the details of a buffer: its commits, or the frames that it stored. */
function detailsOfBuffer(run, number) {
  const {node, buffer} = bufferAt(number);
  const details = emptyDetails(receiverName(run, {node, buffer}));
  details.lit.nodes.set(node, "chosen");
  if (buffer !== null) {
    const it = run.header.nodes[node].buffers[buffer];
    const channels = it.channels.length > 1 ? "channels A and B" : `channel ${it.channels}`;
    details.facts.push(`It is for slot ${it.slot} on ${channels} in ${cyclesText(it.base, it.repetition)}.`);
    if (it.kind !== "receive") {
      details.tables = [commitTable(run, node, buffer)];
      return details;
    }
  }
  if (!run.hasSeen) {
    details.tables = [arrivedTable(run, node, buffer, details)];
    return details;
  }
  details.tables = [storedTable(run, node, buffer, details)];
  details.facts.push(`It stored ${counted(details.tables[0].rows.length, "frame")} in the run.`);
  return details;
}

/** Returns the table of the frames that a receive buffer or the FIFO stored, and adds them to what lights up. */
function storedTable(run, node, buffer, details) {
  const word = buffer === null ? "queue" : `b${buffer}`;
  const places = run.columns.stored_place;
  const first = below(places, run.seenPlace(node, 0, 0) - 1);
  const last = below(places, run.seenPlace(node + 1, 0, 0) - 1);
  const lines = [];
  for (let place = first; place < last; place += 1) {
    if (run.word("stored_by", place).split(",").includes(word)) {
      const its = places[place] % (2 * run.windows);
      details.lit.places.push(its);
      lines.push(...run.linesAt(its >> 1, its & 1).filter((it) => run.word("record_passed", it) === "passed"));
    }
  }
  return carriedTable(run, "Frames that it stored", lines);
}

/** Returns the table of the commits that a receive buffer or the FIFO got, and adds them to what lights up. */
function arrivedTable(run, node, buffer, details) {
  const word = `${node}:${buffer === null ? "queue" : `b${buffer}`}`;
  const rows = [];
  for (let commit = 0; commit < run.columns.commit_node.length; commit += 1) {
    const sends = sendsOf(run, commit).filter((it) => run.word("sent_receivers", it).split(",").includes(word));
    for (const sent of sends) {
      const {window, channel} = sentAt(run, sent);
      details.lit.places.push(2 * window + channel);
      rows.push([link(`cycle ${run.columns.sent_cycle[sent]}`, "window", window, channel),
                 link(commitText(run, commit), "commit", commit)]);
    }
  }
  return {caption: "Commits that it stored", head: ["sent in", "commit"], rows};
}

// ---- expectations

/** Returns the table of missed expectations, by the lines of the scenario. */
function missedTable(run) {
  const rows = run.header.missed.map((it) => {
    const its = run.header.nodes[it.node];
    const isThere = its !== undefined && its.buffers[it.buffer] !== undefined;
    const name = isThere ? receiverName(run, it) : `node ${it.node} buffer ${it.buffer}`;
    return [`line ${it.line}`, isThere ? link(name, "buffer", bufferNumber(it.node, it.buffer)) : name,
            link(`cycle ${it.cycle}`, "cycle", it.cycle), it.expected, it.found,
            it.others ? `and in ${counted(it.others, "other cycle")}` : ""];
  });
  return {caption: "Expectations that the run missed",
          head: ["expectation", "buffer", "at the end of", "expected", "found", "others"], rows};
}
