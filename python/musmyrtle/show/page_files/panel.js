"use strict";

/** The rows of a table that are shown at first, and with each further step. */
const MOST_ROWS = 100;
const MOST_PARTS = 16;
const LONG_WORD = /\S{16}/;

/**
 * Returns an element with a text or with children. No text is read as HTML.
 * @param {string} tag
 * @param {Object<string, string>} attributes
 * @param {...(string|Element)} children
 */
function element(tag, attributes = {}, ...children) {
  const made = document.createElement(tag);
  for (const [name, value] of Object.entries(attributes)) {
    made.setAttribute(name, value);
  }
  made.append(...children);
  return made;
}

/** Returns a button with a text, which calls a function. */
function button(text, act, attributes = {}) {
  const made = element("button", {type: "button", ...attributes}, text);
  made.addEventListener("click", act);
  return made;
}

/** Returns the element for a cell of a table. Only a long word in it, as of bytes, may be broken. */
function cellElement(cell, choose) {
  const text = typeof cell === "string" ? cell : cell.text;
  const attributes = LONG_WORD.test(text) ? {class: "long"} : {};
  return element("td", attributes, text === cell ? text : button(text, () => choose(cell.choice)));
}

/** Returns a table with a button for more rows, in a box that can be scrolled with the keyboard. */
function tableElement({caption, head, rows, isList = true}, choose) {
  const body = element("tbody");
  const heading = element("tr", {}, ...head.map((it) => element("th", {scope: "col"}, it)));
  const title = element("caption", {}, caption + (isList ? ` (${rows.length.toLocaleString("en")})` : ""));
  const box = element("div", {class: "table", tabindex: "0", role: "region", "aria-label": caption},
                      element("table", {}, title, element("thead", {}, heading), body));
  let shown = 0;
  const more = button("", () => show());
  const show = () => {
    const until = Math.min(rows.length, shown + MOST_ROWS);
    const made = rows.slice(shown, until).map((row) => row.map((it) => cellElement(it, choose)));
    body.append(...made.map((it) => element("tr", {}, ...it)));
    shown = until;
    more.textContent = `Show ${Math.min(MOST_ROWS, rows.length - shown)} more`;
    if (shown === rows.length) {
      more.remove();
    }
  };
  box.append(more);
  show();
  return box;
}

/** Fills an element with the details of a choice. */
function showDetails(place, details, choose) {
  const heading = element("h2", {tabindex: "-1", id: "chosen"}, details.title);
  const parts = [heading, ...details.facts.map((it) => element("p", {}, it))];
  parts.push(...details.tables.filter((it) => it.rows.length).map((it) => tableElement(it, choose)));
  if (details.line) {
    parts.push(element("details", {}, element("summary", {}, "As fr_view prints it"),
                       element("pre", {tabindex: "0"}, details.line)));
  }
  place.replaceChildren(...parts);
  return heading;
}

/** Fills an element with the errors of each node by parts of the run. */
function showErrors(place, run, choose) {
  const {cycles, rows} = errorTable(run, MOST_PARTS);
  const parts = rows[0].counts.map((_, part) => partText(run, part * cycles, cycles));
  const table = {
    caption: run.isRecording ? "Findings in the slots of nodes" : "Errors that nodes counted", isList: false,
    head: ["node", "all", ...parts],
    rows: rows.map(({total, counts, first}, node) => [
      {text: nodeName(run, node), choice: {kind: "node", number: node}}, String(total),
      ...counts.map((it, part) => (it ? {text: String(it), choice: first[part]} : "0"))]),
  };
  place.replaceChildren(tableElement(table, choose));
}

/** Returns `cycle 3`, or `cycles 0 to 63`. */
function partText(run, first, cycles) {
  const last = Math.min(run.header.cycles, first + cycles) - 1;
  const [begin, end] = [first, last].map((it) => it + (run.header.first_cycle || 0));
  return first === last ? `cycle ${begin}` : `cycles ${begin} to ${end}`;
}

/** Fills an element with what the page of this run doesn't have, a sentence each. */
function showMissing(place, run) {
  place.replaceChildren(...run.header.missing.map((it) => element("p", {}, it)));
  place.hidden = run.header.missing.length === 0;
}

/** Fills an element with the expectations of the scenario that the run missed, if it has any. */
function showMissed(place, run, choose) {
  const {expectations, missed, is_endless: isEndless} = run.header;
  const isMet = expectations > 0 && !isEndless;
  place.replaceChildren(...(missed.length ? [tableElement(missedTable(run), choose)]
    : isMet ? [element("p", {}, "Each expectation of the scenario was met.")] : []));
}

/** Fills an element with the fault lines of the scenario. */
function showFaults(place, run, choose) {
  const rows = run.header.faults.map((it, fault) => [
    {text: faultText(run, fault), choice: {kind: "fault", number: fault}},
    run.header.idle.includes(it.line) ? "no effect" : effectText(run, fault)]);
  place.replaceChildren(rows.length ? tableElement({caption: "Fault lines", head: ["fault", "effect"], rows}, choose)
    : element("p", {}, "The scenario has no fault lines."));
}

/** Fills an element with what a search found. */
function showResults(place, run, choices, choose) {
  const rows = choices.map((it) => [{text: TEXTS[it.kind](run, it), choice: it}]);
  place.replaceChildren(rows.length ? tableElement({caption: "Found", head: ["place"], rows}, choose)
    : element("p", {}, "Nothing was found."));
}

/** Fills an element with the lines of the record in view. */
function showView(place, run, view, choose) {
  const {count, lines} = inView(run, view, MOST_ROWS);
  const table = carriedTable(run, "In view", lines);
  const source = run.isRecording ? "recording" : "record";
  const told = `${counted(count, "line")} of the ${source} from ${timeText(run, Math.round(view.from))} to `
    + `${timeText(run, Math.round(view.from + view.span))}.`;
  const more = count > lines.length ? ` The first ${lines.length} are listed; zoom in for others.` : "";
  place.replaceChildren(element("p", {}, told + more), tableElement(table, choose));
}
