"use strict";

/** The lines as `fr_view` prints them, made again from the data of the page. */

/** Returns the word for a number that may be nothing. */
function wordOf(number) {
  return number === null ? "-" : String(number);
}

/** Returns a line of `fr_view record`. */
function recordLine(run, line) {
  const its = run.columns;
  const window = its.record_window[line];
  const slot = run.slots[run.channelOf(line)][window];
  const front = [window, its.window_cycle[window], its.window_minislot[window] || "-", slot || "-",
                 run.word("record_channel", line), wordOf(run.number("record_node", line, "u8")),
                 run.word("record_what", line)];
  const cause = wordOf(run.number("record_line", line, "u16"));
  if (run.word("record_what", line) === "corrupt") {
    return [...front, its.record_bit[line], cause].join(" ");
  }
  return [...front, run.word("record_passed", line), run.word("record_end", line),
          wordOf(run.number("record_frame", line, "u16")), run.word("record_flags", line),
          run.bytes("record_data", line), cause].join(" ");
}

/** Returns a line of `fr_view commits`. */
function commitLine(run, commit) {
  const its = run.columns;
  const fate = run.word("commit_fate", commit);
  const words = [its.commit_node[commit], its.commit_buffer[commit], its.commit_task[commit], its.commit_cycle[commit],
                 its.commit_entry[commit], run.bytes("commit_data", commit), "=", fate];
  const ended = run.number("commit_ended", commit, "u32");
  if (ended !== null) {
    words.push(ended, its.commit_ending[commit]);
  }
  for (let sent = run.firstSent[commit]; sent < run.firstSent[commit + 1]; sent += 1) {
    words.push(its.sent_cycle[sent], its.sent_slot[sent], run.word("sent_channel", sent), run.word("sent_end", sent),
               run.word("sent_receivers", sent));
  }
  return words.join(" ");
}

/** Returns a line of `fr_view answers`. */
function answerLine(run, answer) {
  const its = run.columns;
  const kind = run.word("answer_kind", answer);
  const words = [its.answer_node[answer], its.answer_task[answer], its.answer_cycle[answer], kind];
  const buffer = run.number("answer_buffer", answer, "u8");
  if (buffer !== null) {
    words.push(buffer);
  }
  if (kind === "commit") {
    words.push(run.bytes("answer_committed", answer));
  }
  const count = run.number("answer_count", answer, "u8");
  if (count === null) {
    return [...words, "=", wordOf(run.number("answer_entry", answer, "u32"))].join(" ");
  }
  return [...words, "=", count, its.answer_slot[answer], run.word("answer_channel", answer),
          run.bytes("answer_frame", answer)].join(" ");
}

/** Returns all lines of `record`, `commits` or `answers`. */
function linesOf(run, command) {
  const {record, commits, answers} = {
    record: [run.columns.record_window.length, recordLine], commits: [run.columns.commit_node.length, commitLine],
    answers: [run.columns.answer_node.length, answerLine],
  };
  const [count, line] = {record, commits, answers}[command];
  return Array.from({length: count}, (_, place) => line(run, place));
}
