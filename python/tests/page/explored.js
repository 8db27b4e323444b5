"use strict";

/**
 * Opens all that can be chosen in pages, and paints each: `node explored.js PAGE ..`. It prints the number of choices
 * for each page, and fails at the first one that can't be shown.
 */
require("./loaded.js");
const {openPage} = require("./document.js");

/** Returns all choices of a run. Of a long run it leaves out windows, so that at most MOST are opened. */
function everyChoice(run, most) {
  const kinds = {node: run.nodes, commit: run.columns.commit_node.length, fault: run.header.faults.length,
                 cycle: run.header.cycles};
  const found = Object.entries(kinds).flatMap(([kind, count]) => choicesOf(count, kind, () => true));
  found.push(...usedSlots(run).map((number) => ({kind: "slot", number})));
  run.header.nodes.forEach(({buffers, has_fifo: hasFifo}, node) => {
    const numbers = [...buffers.keys(), ...(hasFifo ? [FIFO] : [])];
    found.push(...numbers.map((it) => ({kind: "buffer", number: bufferNumber(node, it)})));
  });
  const step = Math.ceil(2 * run.windows / most);
  for (let place = 0; place < 2 * run.windows; place += step) {
    found.push({kind: "window", number: place >> 1, channel: place & 1});
  }
  return found;
}

async function main() {
  for (const page of process.argv.slice(2)) {
    openPage(page);
    await explore();
    const {explorer} = globalThis;
    const choices = everyChoice(explorer.run, 200);
    for (const choice of choices) {
      explorer.open(choice);
      explorer.paint();
      const title = document.getElementById("details").textContent;
      if (!title || /undefined|NaN|null,/.test(title)) {
        throw new Error(`${page}: ${JSON.stringify(choice)}: ${title.slice(0, 300)}`);
      }
      clearTimeout(explorer.listing);
      showView(document.getElementById("in-view"), explorer.run, explorer.view, explorer.enter);
    }
    while (explorer.history.length > 1) {
      explorer.back();
    }
    console.log(choices.length);
  }
  process.exit(0);
}

main();
