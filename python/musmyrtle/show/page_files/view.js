"use strict";

/**
 * The part of the run that is in view: the macrotick at the left edge, the macroticks in view, and the pixels.
 * @typedef {{from: number, span: number, width: number, length: number}} View
 */

/** The fewest macroticks in view. */
const LEAST_SPAN = 4;
const STEPS = [1, 2, 5];

/** Returns the view of a whole run. */
function wholeView(length, width) {
  return {from: 0, span: length, width, length};
}

/** Returns a view within the run, of at most the whole run. */
function clamped(view) {
  const span = Math.min(view.length, Math.max(Math.min(LEAST_SPAN, view.length), view.span));
  return {...view, span, from: Math.min(view.length - span, Math.max(0, view.from))};
}

/** Returns the view with FACTOR times the macroticks, in which the macrotick at pixel X stays where it is. */
function zoomed(view, factor, x) {
  const before = timeAt(view, x);
  const {span} = clamped({...view, span: view.span * factor});
  return clamped({...view, span, from: before - x / view.width * span});
}

/** Returns the view moved by a number of pixels. */
function moved(view, pixels) {
  return clamped({...view, from: view.from + pixels / view.width * view.span});
}

/** Returns the view of some macroticks, with room at both sides. */
function viewOf(view, begin, end, room = 2) {
  const span = (end - begin) * (1 + 2 * room);
  return clamped({...view, span, from: (begin + end - span) / 2});
}

/** Returns a view of the same length in which a time is in the middle, unless it is in view already. */
function viewAt(view, begin, end) {
  if (begin >= view.from && end <= view.from + view.span) {
    return view;
  }
  return clamped({...view, from: (begin + end - view.span) / 2});
}

/** Returns the macrotick at a pixel. */
function timeAt(view, x) {
  return view.from + x / view.width * view.span;
}

/** Returns the pixel of a macrotick. */
function pixelOf(view, time) {
  return (time - view.from) / view.span * view.width;
}

/**
 * Returns the times of marks on the axis, at least APART pixels from each other.
 * @param {View} view
 * @param {number} scale the length of a macrotick in the unit of the axis
 * @param {number} apart
 * @returns {{time: number, text: string}[]} times in macroticks, and texts in the unit of the axis
 */
function ticksOf(view, scale, apart = 90) {
  const least = view.span * scale * apart / view.width;
  const power = 10 ** Math.floor(Math.log10(least));
  const step = power * (STEPS.find((it) => it * power >= least) || 10);
  const found = [];
  for (let place = Math.ceil(view.from * scale / step); place * step <= (view.from + view.span) * scale; place += 1) {
    const value = Number((place * step).toPrecision(12));
    found.push({time: value / scale, text: value.toLocaleString("en", {maximumFractionDigits: 6})});
  }
  return found;
}
