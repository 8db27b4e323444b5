"use strict";

/**
 * A walk through the page, with the means that a browser and the document of these tests share. It returns what the
 * page showed after each step.
 */

/** Waits until lists are made. */
function settled() {
  return new Promise((resolve) => { setTimeout(resolve, 250); });
}

/** Returns the button with a text within an element. */
function buttonIn(name, text) {
  const its = [...document.getElementById(name).querySelectorAll("button")];
  const found = its.find((it) => it.textContent.startsWith(text));
  if (!found) {
    throw new Error(`no button ${text} in ${name}, but ${its.map((it) => it.textContent).join(" | ").slice(0, 400)}`);
  }
  return found;
}

/** Drags the picture from one pixel to another, or clicks it where both are the same. */
function drag(from, to, y) {
  const {explorer} = globalThis;
  const box = document.getElementById("picture").getBoundingClientRect();
  const at = (x) => ({button: 0, pointerId: 1, clientX: box.left + Number(x), clientY: box.top + Number(y)});
  explorer.grab(at(from));
  explorer.drag(at(to));
  explorer.release(at(to));
}

/** Turns the wheel at a pixel. */
function turn(x, delta, shift) {
  const box = document.getElementById("picture").getBoundingClientRect();
  globalThis.explorer.wheel({deltaX: 0, deltaY: Number(delta), shiftKey: shift === "shift", preventDefault() {},
                             clientX: box.left + Number(x), clientY: box.top});
}

/** Does something with the plot of a number: presses a key, points at a time, shows a signal, or sets an age. */
function plot(number, verb, value) {
  const {plots} = globalThis;
  const acts = {
    press: () => plots.shown[number].press({key: value, preventDefault() {}}),
    point: () => plots.shown[number].point(Number(value)), show: () => plots.show(Number(value)),
    hide: () => plots.hide(plots.shown[number]),
    age: () => {
      plots.age.value = value;
      plots.setAge();
    },
  };
  acts[verb]();
}

/**
 * Does one step, as `click nodes pedal`, `find slot 4`, `press n`, `drag 200 300 50`, `turn 200 -100` or
 * `plot 0 press ArrowRight`.
 */
function doStep(step) {
  const [verb, where, ...rest] = step.split(" ");
  const text = rest.join(" ");
  if (verb === "click") {
    (text ? buttonIn(where, text) : document.getElementById(where)).click();
  } else if (verb === "find") {
    document.getElementById("search-kind").value = where;
    document.getElementById("search-text").value = text;
    globalThis.explorer.search();
  } else if (verb === "press") {
    globalThis.explorer.press({key: where, preventDefault() {}});
  } else {
    ({drag, turn, plot})[verb](where, ...rest);
  }
}

/** Returns what the page shows. The picture is painted first, since a headless browser may have no frame for that. */
function shownNow() {
  globalThis.explorer.paint();
  const textOf = (name) => document.getElementById(name).textContent;
  const {view} = globalThis.explorer;
  return {
    focus: document.activeElement.id || document.activeElement.textContent, view: [view.from, view.span],
    subject: textOf("subject"), nodes: textOf("nodes"), details: textOf("details"), results: textOf("results"),
    status: textOf("status"), inView: textOf("in-view"), errors: textOf("errors"), faults: textOf("faults"),
    missing: textOf("missing"), missed: textOf("missed"),
    plots: document.getElementById("signals") ? textOf("signals") : "",
    label: document.getElementById("picture").getAttribute("aria-label"),
  };
}

/** Does all steps, and returns what the page showed at first and after each of them. */
async function walk(steps) {
  await settled();
  const found = [shownNow()];
  for (const step of steps) {
    doStep(step);
    await settled();
    found.push(shownNow());
  }
  return found;
}

if (typeof module !== "undefined") {
  module.exports = {walk};
}
