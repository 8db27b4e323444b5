"use strict";

/** Prints all signals of pages over time: `node series.js PAGE ..`, a line for each page. */
const {runOf} = require("./loaded.js");

/** Returns a signal with its lines: steps by their times and raw values, and losses by their times. */
function signalOf(run, chosen) {
  const lines = seriesOf(run, chosen).map(({label, node, steps, losses}) => ({
    label, node, steps: steps.map(({time, read}) => [time, read && String(read.raw)]),
    losses: losses.map(({time}) => time),
  }));
  return {text: chosen.text, node: chosen.node, buffer: chosen.buffer, signal: chosen.signal.name, lines};
}

async function main() {
  for (const page of process.argv.slice(2)) {
    const run = await runOf(page);
    console.log(JSON.stringify(choosableOf(run).map((it) => signalOf(run, it))));
  }
}

main();
