"use strict";
// What the other scripts of a page share: what it knows, how elements are made, and the room of texts that change.

// The data, the whole moments, and which of them is shown; load() adds the elements by what they show.
const page = { run: null, states: [], now: -1 };
const SVG = "http://www.w3.org/2000/svg";
const parts = new WeakMap();

const byId = (name) => document.getElementById(name);
const all = (selector, inside = document) => [...inside.querySelectorAll(selector)];
const colour = (actor) => `a${(actor - 1) % page.run.colours + 1}`;

// Other scripts hear of "loaded", of "appended" and "shown" with the moment's index, and of "picked" with a row and its
// step, 0 for an undone one.
const tell = (name, detail) => document.dispatchEvent(new CustomEvent(name, { detail }));

function make(tag, kind, ...inside) {
  const element = document.createElement(tag);
  if (kind) element.className = kind;
  element.append(...inside);
  return element;
}

function drawing(tag, values, ...inside) {
  const element = document.createElementNS(SVG, tag);
  for (const name in values) element.setAttribute(name, values[name]);
  element.append(...inside);
  return element;
}

function put(element, text) {
  if (element.textContent !== text) element.textContent = text;
}

// The first part of an element that a selector names; it is looked up once.
function part(element, selector) {
  if (!parts.has(element)) parts.set(element, {});
  const own = parts.get(element);
  if (!(selector in own)) own[selector] = element.querySelector(selector);
  return own[selector];
}

// Puts children into this order. Those that are there already don't move, so that what is focused stays so.
function order(parent, children) {
  children.forEach((child, at) => {
    if (parent.children[at] !== child) parent.insertBefore(child, parent.children[at] || null);
  });
}

// An element that changes its text has room for the longest of its texts: hidden copies of them.
function widen(stack, text, most = 3, tag = "span") {
  const kept = page.texts.get(stack) || [];
  if (!text || kept.includes(text)) return;
  const sorted = [...kept, text].sort((one, other) => one.length - other.length || (one < other ? -1 : 1));
  const longest = sorted.filter((it) => it.length * 10 >= sorted.at(-1).length * 8).slice(-most);
  if (!longest.includes(text)) return;
  page.texts.set(stack, longest);
  for (const sizer of all(":scope > .sizer", stack)) sizer.remove();
  stack.prepend(...longest.map((words) => hidden(tag, words)));
}

// What isn't seen, but has its room.
function hidden(tag, ...inside) {
  const sizer = make(tag, "sizer", ...inside);
  sizer.setAttribute("aria-hidden", "true");
  return sizer;
}
