"use strict";

/** Reads signals by the script of the page: `node signals.js FILE`, with a line for each layout and its payloads. */
const fs = require("node:fs");
require("./loaded.js");

/** Returns a number as a text, with the sign of 0. */
function spelled(number) {
  return number === null ? null : Object.is(number, -0) ? "-0" : String(number);
}

/** Returns what a signal is in a payload, or null if it isn't there. */
function readAs(layout, signal, payload) {
  const read = layout.read(signal, payload);
  if (read === null) {
    return null;
  }
  const number = read.fraction ? nearestNumber(read.fraction) : typeof read.raw === "number" ? read.raw : null;
  const exact = read.fraction && reduced(read.fraction);
  return {
    raw: typeof read.raw === "number" ? spelled(read.raw) : String(read.raw), isNew: Boolean(read.isNew),
    isInvalid: read.isInvalid, name: read.name, isInRange: read.isInRange, number: spelled(number),
    exact: exact && [String(exact.top), String(exact.bottom)], text: read.fraction ? exactText(read.fraction) : null,
  };
}

for (const line of fs.readFileSync(process.argv[2], "utf8").split("\n").filter(Boolean)) {
  const {frame, payloads} = JSON.parse(line);
  const layout = new Layout(frame);
  const found = payloads.map((hex) => {
    const payload = Uint8Array.from(Buffer.from(hex, "hex"));
    return layout.signals.map((it) => readAs(layout, it, payload));
  });
  console.log(JSON.stringify(found));
}
