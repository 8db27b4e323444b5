"use strict";

/**
 * Measures the page in milliseconds: `node measured.js PAGE [TIMES]`. TIMES repeats the run's windows, for a run that
 * is longer than the programs allow.
 */
require("./loaded.js");
const {dataOf} = require("./loaded.js");
const {performance} = require("node:perf_hooks");

/** Returns the median time of an act in milliseconds. */
async function timed(act, count = 5) {
  const times = [];
  for (let round = 0; round < count; round += 1) {
    const begin = performance.now();
    await act(round);
    times.push(performance.now() - begin);
  }
  return times.sort((one, other) => one - other)[count >> 1].toFixed(2);
}

/** Returns a column TIMES times one after another, each time higher by STEP. */
function repeated(column, times, step = 0) {
  const made = new column.constructor(column.length * times);
  for (let time = 0; time < times; time += 1) {
    for (let place = 0; place < column.length; place += 1) {
      made[time * column.length + place] = column[place] + time * step;
    }
  }
  return made;
}

/** Returns the data of a run whose windows come several times. What nodes stored is left as it is. */
function longer(data, times) {
  const {header} = data;
  const begins = data.columns.cycle_begin;
  const end = begins[header.cycles];
  const steps = {window_cycle: header.cycles, window_begin: end, record_window: data.columns.window_begin.length};
  const columns = {...data.columns};
  for (const name of Object.keys(columns)) {
    if (name.startsWith("window_") || name.startsWith("record_")) {
      columns[name] = repeated(columns[name], times, steps[name]);
    }
  }
  columns.cycle_begin = Uint32Array.from([...repeated(begins.subarray(0, header.cycles), times, end), times * end]);
  const size = 2 * data.columns.window_begin.length;
  columns.seen_state = new data.columns.seen_state.constructor(1 + size * times * header.nodes.length);
  header.nodes.forEach((_, node) => {
    const its = data.columns.seen_state.subarray(1 + node * size, 1 + (node + 1) * size);
    columns.seen_state.set(repeated(its, times), 1 + node * size * times);
  });
  return {...data, columns, header: {...header, cycles: header.cycles * times}};
}

async function main() {
  const [page, times] = [process.argv[2], Number(process.argv[3] || 1)];
  const text = dataOf(page);
  const decoding = await timed(() => inflated(text));
  const bytes = await inflated(text);
  const data = times === 1 ? unpacked(bytes) : longer(unpacked(bytes), times);
  const run = new Run(data);
  const channels = [0, 1].map((it) => cellsOf(run, it));
  const told = {
    cycles: run.header.cycles, windows: run.windows, bytes: bytes.length, decoding,
    run: await timed(() => new Run(data)), cells: await timed(() => [0, 1].map((it) => cellsOf(run, it))),
    node: await timed((it) => channels.map((cells) => cellsSeen(run, cells, it % run.nodes))),
    errors: await timed(() => errorTable(run, 16)),
  };
  for (const share of [1, 0.5, 0.1, 0.01, 0.001]) {
    const view = {...wholeView(run.length, 1600), span: run.length * share};
    told[`layout of ${share}`] = await timed((it) => {
      channels.forEach((cells) => laneOf(cells, {...view, from: it / 100 * (run.length - view.span)}));
    }, 101);
  }
  console.log(JSON.stringify(told, null, 1));
}

main();
