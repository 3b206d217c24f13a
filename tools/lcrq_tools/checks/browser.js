// What a page of a run shows, for browser.py: read from what is drawn, and not from its data.

function isSeen(element) {
  const style = getComputedStyle(element);
  const isOpen = element.closest("summary") || !element.closest("details:not([open])");
  return isOpen && style.visibility === "visible" && style.display !== "none" && element.getClientRects().length > 0;
}

function middle(element) {
  const box = element.getBoundingClientRect();
  return Math.round(box.left + box.width / 2);
}

const textOf = (element) => (element ? element.textContent.trim() : "");
const seenIn = (selector, inside = document) => [...inside.querySelectorAll(selector)].filter(isSeen);

function placesShown() {
  const places = {};
  for (const element of seenIn("#queue [data-place]:not([data-place=''])")) {
    const column = element.closest(".column"), segment = element.closest(".segment");
    const pins = [...element.querySelectorAll(":scope > .pins > .disc")].filter(isSeen).map(textOf);
    const text = element.classList.contains("segment") ? textOf(element.querySelector(".name")) : textOf(element.querySelector(".text"));
    const column_at = column ? [...column.parentElement.children].indexOf(column) : -1;
    places[element.dataset.place] = {
      text, pins, column: column_at, slot: column ? column.dataset.slot || "" : "",
      segment: segment ? textOf(segment.querySelector(".name")) : "",
      warning: column && element.classList.contains("index") ? textOf(column.querySelector(".warning")) : "",
      closed: segment && element.classList.contains("above") ? textOf(segment.querySelector(".closed")) : "",
      written: element.classList.contains("written"),
    };
  }
  return places;
}

// The viewer whose mark is in an element, in words; nothing without one.
function viewerOf(element) {
  const mark = element && seenIn("use", element)[0];
  return mark ? mark.getAttribute("href").replace("#viewer-", "viewer ") : "";
}

function rowsShown() {
  const rows = seenIn("#lanes .row").map((row) => [row.getBoundingClientRect().top, row]);
  rows.sort((one, other) => one[0] - other[0]);
  const line = seenIn("#border")[0], border = line && line.getBoundingClientRect();
  const side = (box) => (!border || box.bottom <= border.top + 1 ? "above" : box.top >= border.top - 1 ? "below" : "on");
  return rows.map(([top, row]) => ({
    number: textOf(row.querySelector(".number")), about: row.getAttribute("aria-label"), side: side(row.getBoundingClientRect()),
    last: row.classList.contains("last"), named: row.classList.contains("named"), viewer: viewerOf(row),
    undone: row.classList.contains("undone"), stops: row.getAttribute("tabindex") === "0", id: Number(row.dataset.row),
  }));
}

function chipsShown() {
  const chips = {};
  for (const chip of seenIn("#chips > .chip")) {
    const points = seenIn(".point", chip).map((point) => [point.dataset.point, textOf(point.querySelector("b")), textOf(point.querySelector("code"))]);
    const texts = ["call", "words", "note"].map((name) => textOf(chip.querySelector(`.${name} > .text`)));
    chips[chip.dataset.actor] = { points, texts };
  }
  return chips;
}

function shown() {
  const current = [...document.querySelectorAll("#lines [aria-current=step]")];
  return {
    places: placesShown(), rows: rowsShown(), chips: chipsShown(),
    order: seenIn("#queue .segment").filter((it) => it.dataset.place).map((it) => [textOf(it.querySelector(".name")), Boolean(it.closest(".apart")), it.classList.contains("leads")]),
    code: Object.fromEntries(seenIn("#code .step").map((step) => [step.dataset.point, [...step.querySelectorAll(".disc")].map(textOf)]).filter((it) => it[1].length)),
    current: current.map((button) => [...button.children].map((it) => it.getAttribute("aria-label") || textOf(it))), why: current.map((button) => textOf(button.parentElement.querySelector(".why"))),
    said: textOf(document.getElementById("said")), where: textOf(document.getElementById("where")),
    command: textOf(document.getElementById("command")), hash: location.hash, slider: document.getElementById("slider").value,
    valuetext: document.getElementById("slider").getAttribute("aria-valuetext"),
    asker: textOf(document.getElementById("asker")), askerMark: viewerOf(document.getElementById("asker")),
    lineMark: viewerOf(current[0]),
  };
}

// The figures of the handout: the words of each, and the text at each value.
function handout() {
  dispatchEvent(new Event("beforeprint"));
  return [...document.querySelectorAll("#handout figure")].map((figure) => {
    const values = [...figure.querySelectorAll("[data-place^='value ']")].map((it) => [it.dataset.place, textOf(it.querySelector(".text"))]);
    return [textOf(figure.querySelector("figcaption")), Object.fromEntries(values)];
  });
}

// ---- A page that grows ----

// The first line at which a page whose moments came one after another shows anything else than one that had all from
// its beginning, or has parts of another size; and what that is.
function grown() {
  const { run, states } = page, seen = () => page.states.map((state, at) => (show(at), { frames: frames(), dots: dotsShown(), ...shown() }));
  const whole = seen(), lists = states.map((state) => state.rows), half = Math.ceil(lists.length / 2);
  const rowsOf = (ids) => Object.fromEntries(ids.map((id) => [id, run.rows[id]]));
  const { layout, room } = run, bare = { ...layout, lanes: layout.lanes.filter((lane) => lane[3]), bands: [] };
  load({ ...run, moments: run.moments.slice(0, half), rows: rowsOf(lists.slice(0, half).flat()), layout: bare, room: "" }, half);
  if (dotsShown().some((dots) => dots.length > 1)) return "a dot is drawn that has no lane";
  run.moments.slice(half).forEach((moment, at) => {
    const rows = rowsOf(lists[half + at].filter((id) => !page.rows.has(id)));
    append({ moment, rows, ...(at ? {} : { layout, room }) });
  });
  for (const [at, now] of seen().entries()) {
    const part = Object.keys(now).find((key) => JSON.stringify(now[key]) !== JSON.stringify(whole[at][key]));
    if (part) return `line ${states[at].line}: ${part} is ${JSON.stringify(now[part])}, and was ${JSON.stringify(whole[at][part])}`;
  }
  return "";
}

// Where the dots of each row are, however far the lanes are scrolled.
function dotsShown() {
  const left = middle(document.getElementById("lane-heads"));
  const rows = seenIn("#lanes .row").sort((one, other) => one.dataset.row - other.dataset.row);
  return rows.map((row) => seenIn(".dot", row).map((dot) => middle(dot.querySelector("circle, path")) - left));
}

// The row of a step of a live page, live or undone, is clicked; and which steps are framed there.
function clickStep(step) {
  const { element } = page.rows.get(page.states.at(-1).rows[step - 1]);
  element.scrollIntoView({ block: "center" });
  element.click();
}

function framedSteps() {
  const isFramed = (id) => page.rows.get(id).frame && !page.rows.get(id).frame.classList.contains("away");
  return page.states.at(-1).rows.flatMap((id, at) => (isFramed(id) ? [at + 1] : []));
}

// What a click on a row tells other scripts.
function picked(id) {
  let told = null;
  document.addEventListener("picked", (event) => { told = event.detail; }, { once: true });
  document.querySelector(`#lanes .row[data-row="${id}"]`).click();
  return told;
}

// ---- Where texts are ----

function textBoxes() {
  const boxes = [], walker = document.createTreeWalker(document.body, NodeFilter.SHOW_TEXT);
  while (walker.nextNode()) {
    const node = walker.currentNode, parent = node.parentElement;
    if (!node.data.trim() || parent.closest("script, style, title, .who, #handout") || !isSeen(parent) || getComputedStyle(parent).clipPath === "inset(50%)") continue;
    const range = document.createRange();
    range.selectNodeContents(node);
    for (const box of range.getClientRects()) {
      if (box.width > 0) boxes.push({ node, parent, text: node.data.trim(), box, shrink: box.height * 0.12 });
    }
  }
  return boxes;
}

function cutOff({ parent, box }) {
  let scrolls = false;
  for (let it = parent; it; it = it.parentElement) {
    if (it instanceof SVGElement && it.tagName !== "svg") continue;
    const style = getComputedStyle(it), frame = it.getBoundingClientRect();
    const clips = style.overflowX !== "visible";
    if (!clips || it === document.body || it === document.documentElement) continue;
    const moves = ["auto", "scroll"].includes(style.overflowX);
    const right = frame.left + (moves ? it.scrollWidth - it.scrollLeft : frame.width);
    const bottom = frame.top + (moves ? it.scrollHeight - it.scrollTop : frame.height);
    if (box.left < frame.left - it.scrollLeft - 1 || box.right > right + 1 || box.bottom > bottom + 2) return true;
    scrolls = scrolls || moves;
  }
  return !scrolls && (box.left < -1 || box.right > document.documentElement.clientWidth + 1);
}

const SCROLLERS = ".scroll, .lines, .chips, .look > section:first-child";

function layoutFaults() {
  for (const scroller of document.querySelectorAll(SCROLLERS)) {
    scroller.scrollTo(0, 0);
    scroller.dispatchEvent(new Event("scroll")); // which the browser tells later
  }
  scrollTo(0, 0);
  const root = document.documentElement, faults = [], boxes = textBoxes();
  if (root.scrollWidth > root.clientWidth) faults.push(`the page scrolls sideways: ${root.scrollWidth} of ${root.clientWidth}`);
  boxes.sort((one, other) => one.box.top - other.box.top);
  boxes.forEach((one, at) => {
    if (cutOff(one)) faults.push(`cut off: ${one.text}`);
    for (const other of boxes.slice(at + 1)) {
      if (other.box.top + other.shrink >= one.box.bottom - one.shrink) break;
      const beside = one.box.right - 1 <= other.box.left || other.box.right - 1 <= one.box.left;
      if (!beside && one.node !== other.node && !isUnder(one, other)) faults.push(`overlap: ${one.text} | ${other.text}`);
    }
  });
  return faults;
}

// The bar and the heads of the lanes stay in place, and what is scrolled goes below them; a list that scrolls hides what is beyond its frame.
function isUnder(one, other) {
  if (scrollersOf(one)[0] === scrollersOf(other)[0]) return false;
  return [one, other].some((it) => scrollersOf(it).some((scroller) => {
    const frame = scroller.getBoundingClientRect();
    return it.box.top >= frame.bottom - 1 || it.box.left >= frame.right - 1 || it.box.bottom > frame.bottom || it.box.right > frame.right;
  }));
}

// What scrolls around a text, from the inside.
function scrollersOf({ parent }) {
  const found = [];
  for (let it = parent.closest(SCROLLERS); it; it = it.parentElement.closest(SCROLLERS)) found.push(it);
  return found;
}

function frames() {
  const sizes = ["queue", "lanes", "lines"].map((name) => document.getElementById(name).getBoundingClientRect());
  return [...sizes.map((it) => `${Math.round(it.width)}x${Math.round(it.height)}`), document.documentElement.scrollHeight].join(" ");
}

function smallest() {
  return Math.min(...textBoxes().map((it) => it.box.height / 1.17));
}

// How long a key takes to be answered, the layout included.
function pressed(key) {
  const begin = performance.now();
  document.body.dispatchEvent(new KeyboardEvent("keydown", { key, bubbles: true, cancelable: true }));
  document.body.getBoundingClientRect();
  return performance.now() - begin;
}

function dependants(id) {
  const row = document.querySelector(`#lanes .row[data-row="${id}"]`);
  row.focus({ preventScroll: true });
  const marked = rowsMarked("depends");
  row.blur();
  return marked;
}

const rowsMarked = (kind) => rowsShown().filter((it) => document.querySelector(`#lanes .row[data-row="${it.id}"]`).classList.contains(kind)).map((it) => it.id);
