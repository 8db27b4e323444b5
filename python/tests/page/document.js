"use strict";

/** A document with as much of a browser as the page needs, so that its scripts run in node. */
const fs = require("node:fs");

/** Elements without an end. */
const EMPTY = ["meta", "input", "br"];

/** An element, or a text in `text` alone. */
class Element {
  constructor(tag) {
    this.tagName = tag;
    this.attributes = {};
    this.children = [];
    this.listeners = {};
    this.style = {};
    this.parentElement = null;
    this.value = "";
    this.clientWidth = 1130;
  }

  set id(name) {
    this.attributes.id = name;
  }

  get id() {
    return this.attributes.id || "";
  }

  get hidden() {
    return "hidden" in this.attributes;
  }

  set hidden(isHidden) {
    if (isHidden) {
      this.attributes.hidden = "";
    } else {
      delete this.attributes.hidden;
    }
  }

  get textContent() {
    return this.tagName === "#text" ? this.text : this.children.map((it) => it.textContent).join("");
  }

  set textContent(text) {
    this.replaceChildren(String(text));
  }

  setAttribute(name, value) {
    this.attributes[name] = value;
  }

  getAttribute(name) {
    return name in this.attributes ? this.attributes[name] : null;
  }

  append(...children) {
    for (const it of children) {
      const child = typeof it === "string" ? Object.assign(new Element("#text"), {text: it}) : it;
      child.parentElement = this;
      this.children.push(child);
    }
  }

  replaceChildren(...children) {
    this.children.forEach((it) => { it.parentElement = null; });
    this.children = [];
    this.append(...children);
  }

  remove() {
    const its = this.parentElement.children;
    its.splice(its.indexOf(this), 1);
    this.parentElement = null;
  }

  addEventListener(event, act) {
    this.listeners[event] = [...(this.listeners[event] || []), act];
  }

  dispatch(event, more = {}) {
    const its = {preventDefault() {}, deltaX: 0, deltaY: 0, button: 0, ...more};
    (this.listeners[event] || []).forEach((act) => act(its));
  }

  click() {
    // A button that a document has no longer can't be clicked.
    if (this.isConnected) {
      document.activeElement = this;
      this.dispatch("click");
    }
  }

  focus() {
    document.activeElement = this;
  }

  get isConnected() {
    return this === document.documentElement || this.parentElement !== null && this.parentElement.isConnected;
  }

  setPointerCapture() {}

  getBoundingClientRect() {
    return {left: 0, top: 0};
  }

  /** Returns all elements in it that suit, in their order. */
  all(suits) {
    const found = [];
    for (const it of this.children) {
      if (it.tagName !== "#text" && suits(it)) {
        found.push(it);
      }
      found.push(...it.all(suits));
    }
    return found;
  }

  /** Returns elements by tag alone, which is all that the walk needs. */
  querySelectorAll(tag) {
    return this.all((it) => it.tagName === tag);
  }

  /** Returns what paints on a canvas: it counts the calls, and has each text. */
  getContext() {
    this.painted = this.painted || {calls: 0, texts: []};
    const {painted} = this;
    const known = {measureText: (text) => ({width: 7 * text.length})};
    return new Proxy({}, {
      get: (_, name) => known[name] || ((...given) => {
        painted.calls += 1;
        if (name === "fillText") {
          painted.texts.push(given[0]);
        }
      }),
      set: () => true,
    });
  }
}

/** Returns the element of a text in HTML. The page is simple: each attribute has quotes, or no value. */
function parsed(text) {
  const top = new Element("#document");
  const open = [top];
  const forms = /<!DOCTYPE[^>]*>|<(\/?)([a-z0-9]+)((?:\s+[a-z-]+(?:="[^"]*")?)*)\s*>|([^<]+)/g;
  let raw = null;
  for (const [whole, isEnd, tag, attributes, words] of text.matchAll(forms)) {
    const last = open[open.length - 1];
    if (words !== undefined) {
      last.append(words.replace(/&lt;/g, "<").replace(/&gt;/g, ">").replace(/&quot;/g, '"').replace(/&amp;/g, "&"));
    } else if (isEnd) {
      open.pop();
      raw = null;
    } else if (tag && raw === null) {
      const made = new Element(tag);
      for (const [, name, , value] of attributes.matchAll(/([a-z-]+)(="([^"]*)")?/g)) {
        made.setAttribute(name, value || "");
      }
      last.append(made);
      if (!EMPTY.includes(tag)) {
        open.push(made);
      }
    } else if (!whole.startsWith("<!")) {
      throw new Error(`${whole} isn't understood`);
    }
  }
  return top.children.find((it) => it.tagName === "html");
}

/** Makes a page the document, without its scripts. */
function openPage(file) {
  const text = fs.readFileSync(file, "utf8").replace(/<script>[^]*<\/script>/, "").replace(/<style>[^]*<\/style>/, "");
  const html = parsed(text);
  globalThis.document = {
    documentElement: html, body: html.children.find((it) => it.tagName === "body"), activeElement: null,
    createElement: (tag) => new Element(tag),
    getElementById: (name) => html.all((it) => it.attributes.id === name)[0] || null,
  };
  document.activeElement = document.body;
  globalThis.requestAnimationFrame = (act) => setTimeout(act, 0);
  globalThis.getComputedStyle = () => ({getPropertyValue: () => ""});
  globalThis.matchMedia = () => ({addEventListener() {}});
  globalThis.addEventListener = () => {};
  globalThis.ResizeObserver = class {
    observe() {}
  };
  document.getElementById("search-kind").value = "node";
}

module.exports = {openPage};
