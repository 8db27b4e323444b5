"use strict";

/** Prints the texts at the pointer for windows and channels: `node hovered.js PAGE "WINDOW CHANNEL" ..`. */
const {runOf} = require("./loaded.js");

runOf(process.argv[2]).then((run) => {
  console.log(JSON.stringify(process.argv.slice(3).map((it) => hoverText(run, ...it.split(" ").map(Number)))));
});
