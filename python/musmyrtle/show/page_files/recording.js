"use strict";

/** What the page of a recording has in the place of a run: records of the logger, and the findings of `fr_monitor`. */

/** The number of a record that isn't there, as of a missing frame. */
const NO_RECORD = 0xffffffff;

/** Returns a word, or nothing for an absent one. */
function orNothing(value) {
  return value === null ? "" : String(value);
}

/** Returns the table of lines of the record of a recording. */
function recordedTable(run, caption, lines) {
  return {caption, head: ["cycle", "at", "record", "recorded at [s]", "slot", "channel", "configured sender", "what",
                          "finding", "bytes"], rows: new Rows(lines, (it) => recordedRow(run, it))};
}

/** Returns the row of a line of the record of a recording. */
function recordedRow(run, line) {
  const its = run.columns;
  const window = its.record_window[line];
  const channel = run.channelOf(line);
  const slot = run.slots[channel][window];
  const end = run.word("record_end", line);
  const record = its.record_number[line];
  const node = its.record_node[line];
  return [
    link(cycleText(run, its.window_cycle[window]), "window", window, channel), timeText(run, its.window_begin[window]),
    record === NO_RECORD ? "" : String(record), run.word("record_seconds", line), link(String(slot), "slot", slot),
    CHANNELS[channel], link(nodeName(run, node), "node", node), whatText(run, line),
    end === run.header.arrived ? "" : end,
    run.word("record_what", line) === "offer" ? run.bytes("record_data", line) : ""];
}

/** Returns the table of all findings, in the order of the recording. */
function findingsTable(run) {
  const its = run.header.findings;
  const rows = new Rows(Array.from(its.keys()), (place) => findingRow(run, its[place]));
  return {caption: "Findings", head: ["record", "recorded at [s]", "cycle", "channel", "slot", "node", "reason"], rows};
}

/** Returns the row of a finding. */
function findingRow(run, finding) {
  const [record, seconds, count, channel, slot, node, why, window] = finding;
  const cycle = window < 0 ? (count === null ? "" : `count ${count}`)
    : link(cycleText(run, run.columns.window_cycle[window]), "window", window, CHANNELS.indexOf(channel));
  return [orNothing(record), orNothing(seconds), cycle, channel,
          slot === null ? "" : link(String(slot), "slot", slot),
          node === null ? "" : link(nodeName(run, node), "node", node), why];
}

/** Returns the table of the frames that aren't drawn, since their cycle or the place of their slot isn't known. */
function unplacedTable(run) {
  const its = run.header.unplaced;
  const rows = new Rows(Array.from(its.keys()), (place) => its[place].map(orNothing));
  return {caption: "Records without a place", head: ["record", "recorded at [s]", "cycle count", "channel", "slot",
                                                     "finding", "bytes"], rows};
}

/** Fills an element with the findings, and with the records that aren't drawn. */
function showFindings(place, run, choose) {
  const tables = [findingsTable(run), unplacedTable(run)].filter((it) => it.rows.length);
  place.replaceChildren(...(run.header.findings.length ? [] : [element("p", {}, run.header.no_finding)]),
                        ...tables.map((it) => tableElement(it, choose)));
}
