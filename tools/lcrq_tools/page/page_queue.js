// ---- The queue: its segments and its array, which are made when a moment has them first ----

// Where a place is shown, with room for pins.
const placeOf = (kind) => make("div", `place ${kind}`, make("span", "text"), make("span", `pins p-${kind}`));

// A cell, a slot or a next, with what stands above and below it.
function columnOf(kinds, caption) {
  const box = make("div", "box", ...kinds.map(placeOf));
  if (caption) box.prepend(make("div", "caption", caption));
  if (kinds.includes("index")) box.append(make("div", "warning"));
  return make("div", "column", placeOf("above"), box, placeOf("below"));
}

function segmentOf(name) {
  const ends = make("div", "ends", make("span", "never", "not linked so far"), placeOf("qhead"), placeOf("qtail"));
  const head = make("div", "segment-head", make("b", "name", `segment ${name}`), make("span", "closed"), ends);
  const cells = Array.from({ length: page.run.ring }, () => columnOf(["label", "value", "index"]));
  const next = columnOf(["content"], "next");
  next.classList.add("next");
  return make("div", "segment", head, make("div", "columns", ...cells, next), make("span", "pins p-whole"));
}

// The element of each segment that a moment has, or of so many that are left out, in the order of the links.
function segmentsOf(state) {
  let gaps = 0;
  const found = new Map();
  for (const item of [...state.linked, ...state.apart]) {
    const key = typeof item === "number" ? `gap ${gaps++}` : item;
    if (!page.segments.has(key)) page.segments.set(key, key === item ? segmentOf(key) : make("div", "left-out"));
    found.set(page.segments.get(key), item);
  }
  return found;
}

// Makes what a moment has, so that there is room for it before it is shown.
function roomInQueue(state) {
  byId("segments").append(...[...segmentsOf(state).keys()].filter((it) => !it.isConnected));
  if (!state.array) return;
  const known = [...page.slots.keys()], first = Math.min(...known, state.array[0]), last = Math.max(...known, state.array[1]);
  const columns = [];
  for (let slot = first; slot <= last; slot += 1) {
    if (!page.slots.has(slot)) page.slots.set(slot, columnOf(["value"], slot < 64 ? `slot ${slot}` : "end"));
    page.slots.get(slot).dataset.slot = slot;
    columns.push(page.slots.get(slot));
  }
  order(byId("slots"), columns);
  byId("array").hidden = false;
}

// An element shows a place with this text; or nothing, where the place is "".
function spot(element, place, text = "") {
  if (place) page.spots.set(place, element);
  element.dataset.place = place;
  if (!element.classList.contains("segment")) put(part(element, ".text"), text);
}

function drawSegment(segment, name, state) {
  const content = (place) => state.places[place], is = name !== undefined;
  segment.classList.toggle("empty", !is);
  segment.classList.toggle("apart", state.apart.includes(name));
  const columns = [...part(segment, ".columns").children], ring = columns.length - 1;
  const [closed, tail] = is ? content(`tail ${name}`).split(" ") : ["", 0], head = is ? content(`head ${name}`) : 0;
  spot(segment, is ? `whole ${name}` : "");
  put(part(segment, ".closed"), closed);
  part(segment, ".closed").classList.toggle("warns", closed === "closed");
  for (const [place, end] of [["qhead", "QHead"], ["qtail", "QTail"]]) {
    const isThere = is && content(place) === name;
    spot(part(segment, `.${place}`), isThere ? place : "", isThere ? `${end} ▾` : "");
  }
  const at = (position) => Number(BigInt(position) % BigInt(ring));
  columns.slice(0, ring).forEach((column, cell) => {
    drawCell(column, name, cell, is && content(`cell ${name} ${cell}`));
    drawCounters(column, is && at(tail) === cell && ["tail", tail], is && at(head) === cell && ["head", head], ` ${name}`);
  });
  spot(part(segment, ".content"), is ? `next ${name}` : "", is ? content(`next ${name}`) : "");
}

function drawCell(column, name, at, content) {
  const [safe, index, value] = content ? content.split(" ") : [];
  spot(part(column, ".label"), content ? `cell ${name} ${at}` : "", `cell ${at}`);
  spot(part(column, ".value"), content ? `value ${name} ${at}` : "", value === "none" ? "" : value);
  spot(part(column, ".index"), content ? `index ${name} ${at}` : "", content ? `idx ${index}` : "");
  column.classList.toggle("unsafe", safe === "0");
  put(part(column, ".warning"), safe === "0" ? "unsafe" : "");
}

function drawCounters(column, tail, head, name) {
  spot(part(column, ".above"), tail ? tail[0] + name : "", tail ? `tail ${tail[1]} ▾` : "");
  spot(part(column, ".below"), head ? head[0] + name : "", head ? `head ${head[1]} ▴` : "");
}

function drawArray({ array, places }) {
  byId("array").classList.toggle("empty", !array);
  for (const [slot, column] of page.slots) {
    const is = Boolean(array) && array[0] <= slot && slot <= array[1], content = is && places[`acell ${slot}`];
    column.classList.toggle("empty", !is);
    spot(part(column, ".value"), content ? `acell ${slot}` : "", content ? content.replace("value ", "").replace("empty", "") : "");
    const here = (end) => is && Number(places[end]) === slot && [end, slot];
    drawCounters(column, here("atail"), here("ahead"), "");
  }
}

function drawQueue(state) {
  page.spots.clear();
  const shown = segmentsOf(state), inOrder = [...shown.keys()];
  order(byId("segments"), [...inOrder, ...[...page.segments.values()].filter((it) => !shown.has(it))]);
  for (const element of page.segments.values()) {
    const item = shown.get(element), after = shown.get(inOrder[inOrder.indexOf(element) + 1]);
    if (element.classList.contains("left-out")) put(element, item === undefined ? "" : `${item} segments`);
    else drawSegment(element, item, state);
    element.classList.toggle("leads", item !== undefined && after !== undefined && state.places[`next ${item}`] === after);
  }
  drawArray(state);
  drawWritten(state);
  drawPins(state);
}

// What the last live step wrote has the colour of its actor.
function drawWritten({ by, written }) {
  for (const element of all("#queue .written")) element.className = element.className.replace(/ written a\d/, "");
  for (const place of written) if (page.spots.has(place)) page.spots.get(place).className += ` written ${colour(by)}`;
}

function drawPins({ actors }) {
  for (const pin of page.pins.values()) pin.remove();
  for (const actor in actors) {
    const place = actors[actor] && page.spots.get(actors[actor].place);
    if (place) part(place, ":scope > .pins").append(pinOf(actor, ""));
  }
}

function pinOf(actor, kind) {
  const key = kind + actor;
  if (!page.pins.has(key)) {
    const pin = make("span", `disc ${colour(actor)}`, actor);
    pin.dataset.actor = actor;
    pin.setAttribute("aria-hidden", "true");
    page.pins.set(key, pin);
  }
  return page.pins.get(key);
}
