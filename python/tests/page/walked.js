"use strict";

/** Prints what a page shows after each step of a walk: `node walked.js PAGE STEP ..`. It runs the page's own script. */
const fs = require("node:fs");
const vm = require("node:vm");
const {openPage} = require("./document.js");
const {walk} = require("./walk.js");

async function main() {
  const [page, ...steps] = process.argv.slice(2);
  openPage(page);
  vm.runInThisContext(fs.readFileSync(page, "utf8").match(/<script>([^]*?)<\/script>/)[1], {filename: page});
  while (document.body.getAttribute("data-ready") === null) {
    await new Promise((resolve) => { setTimeout(resolve, 10); });
  }
  console.log(JSON.stringify(await walk(steps)));
}

main();
