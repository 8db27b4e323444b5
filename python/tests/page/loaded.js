"use strict";

/** Loads the scripts of a page, as a browser does, and its run. */
const fs = require("node:fs");
const path = require("node:path");
const vm = require("node:vm");

const FILES = path.resolve(__dirname, "../../musmyrtle/show/page_files");
const LISTED = fs.readFileSync(path.join(FILES, "../page.py"), "utf8").matchAll(/^(?:SIGNAL_)?SCRIPTS = \(([^)]*)\)/gm);
const SCRIPTS = [...LISTED].flatMap(([, names]) => names.match(/[a-z]+/g));

for (const name of SCRIPTS) {
  const file = path.join(FILES, `${name}.js`);
  vm.runInThisContext(fs.readFileSync(file, "utf8"), {filename: file});
}

/** Returns the data in base 64 of a page. */
function dataOf(page) {
  return fs.readFileSync(page, "utf8").match(/<script type="text\/plain" id="data">([A-Za-z0-9+/=]*)<\/script>/)[1];
}

/** Returns the run of a page. */
async function runOf(page) {
  return new Run(unpacked(await inflated(dataOf(page))));
}

module.exports = {SCRIPTS, dataOf, runOf};
