"use strict";

const WHEEL = 0.0015;
const ZOOM = 1.5;
const CLICK = 4;
const LIST_DELAY = 200;
/** The way of a commit with less than this share of the view is brought closer, with this room at both sides. */
const CLOSE = 0.2;
const ROOM = 0.05;
/** All marks. */
const EVERY = 0xff;

/** The page of a run: what is in view and what is chosen, and all that changes these. */
class Explorer {
  /** @param {Run} run */
  constructor(run) {
    this.run = run;
    this.channels = CHANNELS.map((_, channel) => cellsOf(run, channel));
    this.node = null;
    this.details = null;
    this.history = [];
    this.place = -1;
    this.isPrinted = false;
    this.canvas = document.getElementById("picture");
    this.choose = (choice) => this.open(choice);
    this.enter = (choice) => this.open(choice).focus({preventScroll: true});
    this.view = wholeView(run.length, this.widthOfPicture());
    this.setLanes();
    this.light(null);
    this.fill();
    this.listen();
    this.draw();
    this.list();
  }

  /** Returns the pixels of the time axis. */
  widthOfPicture() {
    return Math.max(100, this.canvas.parentElement.clientWidth - GUTTER);
  }

  /** Fills the parts of the page that stay as they are. */
  fill() {
    const {run} = this;
    const {cluster, scenario, cycles, nodes} = run.header;
    document.getElementById("subject").textContent = `${cluster} with ${scenario}: ${counted(cycles, "cycle")} of `
      + `${timeText(run, run.lengthOf(0))}, ${counted(nodes.length, "node")}, ${counted(run.windows, "window")}.`;
    this.buttons = nodes.map((_, node) => {
      const classes = `node n${node % 8}${node < 8 ? "" : " striped"}`;
      return button(nodeName(run, node), () => this.toggle(node), {"aria-pressed": "false", class: classes});
    });
    document.getElementById("nodes").append(...this.buttons);
    showMissing(document.getElementById("missing"), run);
    showMissed(document.getElementById("missed"), run, this.choose);
    (run.isRecording ? showFindings : showFaults)(document.getElementById("faults"), run, this.choose);
    showErrors(document.getElementById("errors"), run, this.choose);
  }

  // ---- choices

  /** Chooses what a node sees, or no node if it is chosen already. */
  toggle(node) {
    if (this.node === node) {
      this.node = null;
      this.setLanes();
      this.markNodes();
      this.draw();
    } else {
      this.open({kind: "node", number: node});
    }
  }

  /**
   * Opens the details of a choice, lights up what belongs to it, and returns the heading. The heading takes the focus
   * of a button that is replaced.
   */
  open(choice) {
    this.history.push(choice);
    return this.show(choice);
  }

  /** Returns to the choice before. */
  back() {
    if (this.history.length > 1) {
      this.history.pop();
      this.show(this.history[this.history.length - 1]);
    }
  }

  /** Shows a choice without adding it to the history, and returns the heading of its details. */
  show(choice) {
    this.details = DETAILS[choice.kind](this.run, choice);
    if (choice.kind === "node") {
      this.node = choice.number;
      this.setLanes();
    }
    if (choice.kind === "window") {
      this.place = 2 * choice.number + choice.channel;
    }
    this.bring(choice.kind === "commit" ? CLOSE : 0);
    this.light(this.details.lit);
    this.markNodes();
    const heading = showDetails(document.getElementById("details"), this.details, this.enter);
    document.getElementById("back").hidden = this.history.length < 2;
    this.tell(this.details.title);
    this.draw();
    this.list();
    return heading;
  }

  /** Brings what is chosen into view, and closer if it has less than a share of the view. */
  bring(share) {
    if (this.details.span) {
      const [begin, end] = this.details.span;
      const isFitting = end - begin <= this.view.span && end - begin >= share * this.view.span;
      this.view = isFitting ? viewAt(this.view, begin, end) : viewOf(this.view, begin, end, ROOM);
    }
  }

  /** Sets the lanes of the picture: both channels, and both as the chosen node received them. */
  setLanes() {
    const isSeen = this.node !== null && this.run.hasSeen;
    const seen = isSeen ? this.channels.map((it) => cellsSeen(this.run, it, this.node)) : [];
    this.lanes = placedLanes(this.channels.flatMap((it, channel) => [it, ...seen.slice(channel, channel + 1)]));
  }

  /** Lights windows up, or nothing. */
  light(lit) {
    this.calls = lit ? lit.calls : [];
    this.lit = null;
    if (lit && lit.places.length) {
      this.lit = new Uint8Array(2 * this.run.windows);
      lit.places.forEach((it) => { this.lit[it] = 1; });
    }
  }

  /** Shows in the row of nodes which one is chosen, and what each does in the chosen way. */
  markNodes() {
    const marks = this.details ? this.details.lit.nodes : new Map();
    this.buttons.forEach((it, node) => {
      const mark = marks.get(node);
      it.setAttribute("aria-pressed", String(this.node === node));
      it.setAttribute("data-mark", mark || "");
      it.textContent = nodeName(this.run, node) + (mark && mark !== "chosen" ? ` ${mark}` : "");
    });
  }

  /** Goes to the next place with a mark, or to the one before. */
  go(mark, isBack, name) {
    const start = this.place >= 0 ? this.place : isBack ? 2 * this.run.windows : -1;
    const next = nextMarked(this.lanes.map((it) => it.cells), mark, start, isBack);
    if (next === null) {
      this.tell(`There is no ${isBack ? "earlier" : "later"} ${name}.`);
      return;
    }
    this.open({kind: "window", number: next >> 1, channel: next & 1});
  }

  /** Searches for what was typed, and lists what is found. */
  search() {
    const kind = document.getElementById("search-kind").value;
    const choices = found(this.run, kind, document.getElementById("search-text").value);
    showResults(document.getElementById("results"), this.run, choices, this.choose);
    this.tell(`${counted(choices.length, "place")} found.`);
  }

  /** Says something to a screen reader. */
  tell(text) {
    document.getElementById("status").textContent = text;
  }

  // ---- the view

  /** Sets the view. */
  set(view) {
    this.view = view;
    this.draw();
    this.list();
  }

  /** Moves or zooms the view by a command. */
  act(command) {
    const {view} = this;
    const middle = view.width / 2;
    const acts = {
      in: () => zoomed(view, 1 / ZOOM, middle), out: () => zoomed(view, ZOOM, middle),
      left: () => moved(view, -view.width / 8), right: () => moved(view, view.width / 8),
      before: () => moved(view, -view.width), after: () => moved(view, view.width),
      start: () => clamped({...view, from: 0}), end: () => clamped({...view, from: view.length}),
      whole: () => wholeView(view.length, view.width),
      cycle: () => this.viewOfCycle(cycleAt(this.run, timeAt(view, middle))),
    };
    this.set(acts[command]());
  }

  /** Returns the view of one cycle. */
  viewOfCycle(cycle) {
    return clamped({...this.view, span: this.run.lengthOf(cycle), from: this.run.beginOf(cycle)});
  }

  /** Draws the picture in the next frame, once for all changes until then. */
  draw() {
    if (!this.isDrawing) {
      this.isDrawing = true;
      requestAnimationFrame(() => {
        this.isDrawing = false;
        this.paint();
      });
    }
  }

  /** Paints the picture as it is now. */
  paint() {
    const height = heightOf(this.lanes.length);
    const ratio = globalThis.devicePixelRatio || 1;
    const width = GUTTER + this.view.width;
    if (this.canvas.width !== Math.round(width * ratio) || this.canvas.height !== Math.round(height * ratio)) {
      this.canvas.width = Math.round(width * ratio);
      this.canvas.height = Math.round(height * ratio);
      this.canvas.style.height = `${height}px`;
    }
    const context = this.canvas.getContext("2d");
    context.setTransform(ratio, 0, 0, ratio, 0, 0);
    const {run, view, lanes, lit, calls} = this;
    const sums = lit ? this.sumsOf(lit) : [];
    paint(context, {run, view, lanes, lit, sums, calls, height, theme: this.isPrinted ? PAPER : themeOf()});
    this.canvas.setAttribute("aria-label", `Time axis from ${timeText(run, Math.round(view.from))} to `
      + `${timeText(run, Math.round(view.from + view.span))}. A table below lists what is in view.`);
  }

  /** Returns the sums of what is lit for each lane, made once for each choice. */
  sumsOf(lit) {
    if (this.summed !== lit || this.summedLanes !== this.lanes) {
      this.summed = lit;
      this.summedLanes = this.lanes;
      this.sums = this.lanes.map((it) => litSums(it.cells, lit));
    }
    return this.sums;
  }

  /** Lists what is in view, a moment after the last change. */
  list() {
    clearTimeout(this.listing);
    this.listing = setTimeout(() => showView(document.getElementById("in-view"), this.run, this.view, this.enter),
                              LIST_DELAY);
  }

  /** Suits the view to the width of the window. */
  resize() {
    const width = this.widthOfPicture();
    if (width !== this.view.width) {
      this.view = clamped({...this.view, width});
    }
    this.draw();
  }

  // ---- events

  /** Connects the controls with what they do. */
  listen() {
    const on = (name, event, act) => document.getElementById(name).addEventListener(event, act);
    for (const name of ["whole", "cycle", "in", "out", "left", "right"]) {
      on(name, "click", () => this.act(name));
    }
    for (const [name, act] of Object.entries(this.goings())) {
      on(name, "click", act);
    }
    on("back", "click", () => this.back());
    on("search", "submit", (event) => {
      event.preventDefault();
      this.search();
    });
    on("picture", "keydown", (event) => this.press(event));
    on("picture", "wheel", (event) => this.wheel(event));
    on("picture", "pointerdown", (event) => this.grab(event));
    on("picture", "pointermove", (event) => this.drag(event));
    on("picture", "pointerup", (event) => this.release(event));
    on("picture", "pointercancel", () => { this.grabbed = null; });
    globalThis.addEventListener("resize", () => this.resize());
    // A scroll bar that appears changes the width without that event.
    new ResizeObserver(() => this.resize()).observe(this.canvas.parentElement);
    globalThis.addEventListener("beforeprint", () => this.print(true));
    globalThis.addEventListener("afterprint", () => this.print(false));
    globalThis.matchMedia("(prefers-color-scheme: dark)").addEventListener("change", () => this.draw());
  }

  /** Returns what the buttons for errors and collisions do. */
  goings() {
    return {
      "previous-error": () => this.go(MARK.error, true, "error"),
      "next-error": () => this.go(MARK.error, false, "error"),
      "previous-collision": () => this.go(MARK.collision, true, "collision"),
      "next-collision": () => this.go(MARK.collision, false, "collision"),
    };
  }

  /** Does what a key on the picture stands for. */
  press(event) {
    const commands = {ArrowLeft: "left", ArrowRight: "right", ArrowUp: "in", ArrowDown: "out", "+": "in", "=": "in",
                      "-": "out", 0: "whole", 1: "cycle", Home: "start", End: "end", PageUp: "before",
                      PageDown: "after"};
    const goings = {...this.goings(), next: () => this.go(EVERY, false, "slot"),
                    previous: () => this.go(EVERY, true, "slot")};
    const names = {n: "next-error", p: "previous-error", c: "next-collision", C: "previous-collision", ".": "next",
                   ",": "previous"};
    if (event.ctrlKey || event.metaKey || event.altKey || !(commands[event.key] || names[event.key])) {
      return;
    }
    event.preventDefault();
    if (commands[event.key]) {
      this.act(commands[event.key]);
    } else {
      goings[names[event.key]]();
    }
  }

  /** Zooms, or moves with Shift or a wheel that turns sideways. */
  wheel(event) {
    event.preventDefault();
    const x = this.pixel(event).x;
    if (event.shiftKey || Math.abs(event.deltaX) > Math.abs(event.deltaY)) {
      this.set(moved(this.view, event.deltaX || event.deltaY));
    } else {
      this.set(zoomed(this.view, Math.exp(event.deltaY * WHEEL), Math.min(this.view.width, Math.max(0, x))));
    }
  }

  /** Returns the pixel of the picture at which an event is. */
  pixel(event) {
    const box = this.canvas.getBoundingClientRect();
    return {x: event.clientX - box.left - GUTTER, y: event.clientY - box.top};
  }

  /** Begins to move the picture, or to choose a slot. */
  grab(event) {
    if (event.button === 0) {
      this.grabbed = {x: event.clientX, view: this.view, isMoved: false};
      this.canvas.setPointerCapture(event.pointerId);
    }
  }

  /** Moves the picture with the pointer, or names the slot below it. */
  drag(event) {
    const {grabbed} = this;
    if (!grabbed) {
      const {x, y} = this.pixel(event);
      const place = hit(this.lanes, this.view, x, y);
      this.canvas.title = place ? hoverText(this.run, place.window, place.channel) : "";
      return;
    }
    grabbed.isMoved = grabbed.isMoved || Math.abs(event.clientX - grabbed.x) >= CLICK;
    if (grabbed.isMoved) {
      this.set(moved(grabbed.view, grabbed.x - event.clientX));
    }
  }

  /** Chooses the slot below the pointer, unless the picture was moved. */
  release(event) {
    const {grabbed} = this;
    this.grabbed = null;
    const {x, y} = this.pixel(event);
    const place = grabbed && !grabbed.isMoved ? hit(this.lanes, this.view, x, y) : null;
    if (place) {
      this.open({kind: "window", number: place.window, channel: place.channel});
    }
  }

  /** Paints for paper, or for the screen again. */
  print(isPrinted) {
    this.isPrinted = isPrinted;
    this.paint();
  }
}

/** Returns the colours of the picture from the style of the page. */
function themeOf() {
  const style = getComputedStyle(document.documentElement);
  return Object.fromEntries(THEME.map((it) => [it, style.getPropertyValue(`--${it}`).trim() || PAPER[it]]));
}

/** Opens the page on its data. */
async function explore() {
  try {
    globalThis.explorer = new Explorer(new Run(unpacked(await inflated(document.getElementById("data").textContent))));
    document.body.setAttribute("data-ready", "true");
  } catch (error) {
    document.getElementById("subject").textContent = `The page can't be shown: ${error.message}. It opens in a current `
      + "Firefox or Chromium.";
    throw error;
  }
}
