"use strict";

/** Prints what the data of pages says: lines, faults without effect, and counts of errors, an object a page. */
const {runOf} = require("./loaded.js");

/** Returns the counts of a node on both channels, with the receive buffers and FIFOs that stored frames. */
function countsOf(run, node) {
  return CHANNELS.map((_, channel) => run.header.errors.map((it) => countOf(run, node, channel, it)));
}

/** Returns the frames that nodes stored: time, channel, node, and what stored it. */
function storedOf(run) {
  const found = [];
  for (let place = 0; place < 2 * run.windows * run.nodes; place += 1) {
    const node = Math.floor(place / (2 * run.windows));
    const window = (place >> 1) % run.windows;
    const word = run.storedBy(node, window, place & 1);
    if (word !== null) {
      found.push([node, run.columns.window_begin[window], CHANNELS[place & 1], word]);
    }
  }
  return found;
}

/** Returns each read and pop, with the sender of its frame, the sender's buffer, and the cycle of the commit. */
function sourcesOf(run) {
  const its = run.columns;
  const answers = Array.from(its.answer_node.keys()).filter((it) => /read|pop/.test(run.word("answer_kind", it)));
  return answers.map((it) => {
    const commit = run.number("answer_commit", it, "u32");
    const source = commit === null ? [null, null, null]
      : [its.commit_node[commit], its.commit_buffer[commit], its.commit_cycle[commit]];
    return [its.answer_node[it], its.answer_cycle[it], run.word("answer_kind", it), ...source];
  });
}

/** Returns the columns of the windows. */
function windowsOf(run) {
  const names = Object.keys(run.columns).filter((it) => it.startsWith("window_"));
  return Object.fromEntries(names.map((it) => [it, Array.from(run.columns[it])]));
}

async function main() {
  for (const page of process.argv.slice(2)) {
    const run = await runOf(page);
    const {faults} = run.header;
    console.log(JSON.stringify({
      record: linesOf(run, "record"), commits: linesOf(run, "commits"), answers: linesOf(run, "answers"),
      idle: faults.filter((_, it) => !effectsOf(run, it).length).map((it) => it.line),
      counts: run.hasSeen ? Array.from({length: run.nodes}, (_, node) => countsOf(run, node)) : null,
      stored: storedOf(run), sources: sourcesOf(run), tables: errorTable(run, 16).rows.map((it) => it.total),
      parts: errorTable(run, 16).rows.map((it) => it.counts), windows: windowsOf(run),
      cycles: Array.from(run.columns.cycle_begin), outcomes: run.header.nodes.map((it) => it.outcome),
    }));
  }
}

main();
