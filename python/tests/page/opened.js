"use strict";

/** Prints what a page says about a run that it can't show: `node opened.js PAGE`. */
require("./loaded.js");
const {openPage} = require("./document.js");

openPage(process.argv[2]);
explore().then(() => process.stdout.write("The page is shown."),
               () => process.stdout.write(document.getElementById("subject").textContent));
