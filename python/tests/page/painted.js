"use strict";

/** Prints the texts of the picture for the screen and for paper, with what node 1 received: `node painted.js PAGE`. */
require("./loaded.js");
const {openPage} = require("./document.js");

/** Returns the texts of the picture when it is painted anew. */
function textsOf(act) {
  const {painted} = document.getElementById("picture");
  painted.texts = [];
  act();
  return painted.texts;
}

async function main() {
  openPage(process.argv[2]);
  await explore();
  const {explorer} = globalThis;
  explorer.open({kind: "node", number: 1});
  explorer.act("cycle");
  explorer.act("whole");
  explorer.paint();
  console.log(JSON.stringify([textsOf(() => explorer.paint()), textsOf(() => explorer.print(true))]));
}

main();
