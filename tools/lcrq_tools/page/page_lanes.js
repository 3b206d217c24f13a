// ---- Lanes: a row of each step, which moves above or below the border between live and undone steps ----

const TOP = 56, ROW = 20, BORDER = 24, HALF = 10, GAP = 14, BESIDE = 6; // in the drawing's pixels
const MOST_GLIDING = 30; // rows: with more of them nobody sees which row goes where
const SCALE = 1.22 / 16; // of such a pixel, in the page's letters
const DOTS = {
  wrote: () => drawing("circle", { r: 4.5 }),
  read: () => drawing("circle", { r: 4.5 }),
  lost: () => drawing("path", { d: "M-4 -4l8 8m0 -8l-8 8" }),
};

const isLive = (state, at) => at < state.live - page.run.above;
const words = (x, y, text, kind) => drawing("text", { x, y, class: kind }, text);
const rem = (pixels) => `${(SCALE * pixels).toFixed(3)}rem`;

function size(svg, width, height) {
  svg.setAttribute("viewBox", `0 0 ${width} ${height}`);
  svg.style.width = rem(width);
  svg.style.height = rem(height);
}

// The layout is drawn, and what is in rows moves to it.
function drawLayout() {
  const { width, lanes, bands, numbers, first, start, start_name } = page.run.layout;
  page.lanes = new Map(lanes.map(([lane, , x]) => [lane, x]));
  const band = ([, left, right], y) => drawing("rect", { class: "band", x: left, y, width: right - left, height: "100%" });
  byId("lane-heads").replaceChildren(
    ...bands.map((it) => band(it, 4)),
    ...bands.map(([heading, left]) => words(left + GAP, 19, heading, "heading")),
    ...lanes.flatMap(headsOf),
  );
  byId("grounds").replaceChildren(
    ...bands.map((it) => band(it, 0)),
    ...lanes.map(([, , x, actor]) => drawing("line", { class: actor ? `lane own ${colour(actor)}` : "lane", x1: x, x2: x, y2: "100%" })),
    words(numbers, 11, start_name, "start end"),
    ...lanes.filter(([lane]) => start[lane]).map(([lane, , x, actor]) => words(x + (actor ? -9 : 5), 11, start[lane], actor ? "start end" : "start")),
  );
  byId("rows").style.top = rem(first - HALF);
  size(byId("lane-heads"), width, TOP);
  drawHeight();
  for (const row of page.rows.values()) placeRow(row);
}

// The lanes are as long as the rows of the moment that has most of them.
const drawHeight = () => size(byId("grounds"), page.run.layout.width, page.run.layout.first + ROW * page.most + BORDER);

// What is above a lane: an actor or a cell, and a place below its cell.
function headsOf([lane, text, x, actor]) {
  if (actor) return [words(x, 34, text, `heading middle ${colour(actor)}`)];
  const name = words(x, 50, text, "middle");
  if (!lane.startsWith("value ")) return [name];
  const [, segment, cell] = lane.split(" ");
  return [words((x + page.lanes.get(`index ${segment} ${cell}`)) / 2, 34, `cell ${cell}`, "cell middle"), name];
}

// A dot with its text, on a lane that placeRow() finds.
const dotOf = ([lane, kind, text]) => ({ lane, group: drawing("g", { class: `dot ${kind} away` }, words(8, 4, text, ""), DOTS[kind]()) });

// A row is an element of its own with a drawing in it: so the browser lays out only those in sight.
function makeRow(id) {
  const { actor, point, reply, viewer, dots } = page.run.rows[id];
  const number = words(0, 4, "", "number end"), line = drawing("line", {}), mark = isMarked(viewer) ? markOf(viewer) : null;
  const edge = drawing("rect", { class: "edge", y: 1 - HALF, height: ROW - 2 }), own = dotOf([`actor ${actor}`, "wrote", reply]);
  const row = { dots: [own, ...dots.map(dotOf)], number, line, mark, edge, drawn: "" };
  own.group.classList.add("own");
  own.group.prepend(words(-9, 4, point, "stand end"));
  const inside = [line, ...row.dots.map(({ group }) => group), drawing("g", { class: "gutter" }, edge, number, ...(mark ? [mark] : []))];
  row.element = page.rows.has(id) ? page.rows.get(id).element : rowElement(id);
  row.element.className = `row ${colour(actor)} away`;
  row.element.replaceChildren(drawing("svg", { viewBox: `0 ${-HALF} ${ROW} ${ROW}` }, ...inside));
  placeRow(row);
  page.rows.set(id, row);
}

function rowElement(id) {
  const element = byId("rows").appendChild(make("div"));
  element.dataset.row = id;
  element.tabIndex = -1;
  element.setAttribute("role", "listitem");
  return element;
}

// Attributes that stay as they are aren't set again: the browser would lay the row out.
function placeRow(row) {
  let end = 0;
  for (const dot of row.dots) {
    const x = page.lanes.get(dot.lane);
    end = Math.max(end, x || 0);
    if (x === dot.x) continue;
    dot.x = x;
    dot.group.classList.toggle("away", x === undefined);
    if (x !== undefined) dot.group.setAttribute("transform", `translate(${x} 0)`);
  }
  if (row.end !== end) row.line.setAttribute("x2", row.end = end);
  if (row.begin !== row.dots[0].x) row.line.setAttribute("x1", row.begin = row.dots[0].x);
  const { numbers } = page.run.layout;
  if (row.numbers === numbers) return;
  row.number.setAttribute("x", row.numbers = numbers);
  row.edge.setAttribute("width", numbers + 2 + (row.mark ? BESIDE + page.run.marks.wide : 0));
  if (row.mark) row.mark.setAttribute("x", numbers + BESIDE);
}

function drawLanes(state, before) {
  const old = new Set(before ? before.rows.filter((row, at) => isLive(before, at)) : []), shown = new Map(state.rows.map((row, at) => [row, at]));
  const moved = new Set(before ? state.rows.filter((row, at) => isLive(state, at) !== old.has(row)) : []);
  const crossing = [...page.rows].filter(([id, row]) => drawRow(id, row, state, shown.get(id), moved.has(id)));
  const live = state.live - page.run.above;
  byId("border").classList.toggle("away", live === state.rows.length);
  byId("border").style.top = rem(page.run.layout.first - HALF + ROW * live);
  revealRow([state.rows.find((row) => moved.has(row)), state.named.at(-1), state.last].find((id) => page.rows.has(id)));
  if (crossing.length <= MOST_GLIDING && !matchMedia("(prefers-reduced-motion: reduce)").matches) crossing.forEach(([, row]) => glide(row));
}

// A row that crosses the border is seen to go there.
function glide({ element, from }) {
  element.animate([{ transform: from }, { transform: element.style.transform }], { duration: 150, easing: "ease-out" });
}

// Draws a row at this place, if it is listed, and says whether it has crossed the border. Most rows are as they were.
function drawRow(id, row, state, at, moved) {
  const live = isLive(state, at);
  const kinds = { away: at === undefined, undone: !live, last: id === state.last, moved, named: state.named.includes(id) };
  const key = JSON.stringify([at, kinds]);
  if (row.drawn === key) return false;
  const { element } = row, crosses = !kinds.away && !element.classList.contains("away") && element.classList.contains("undone") === live;
  row.drawn = key;
  row.from = element.style.transform;
  for (const kind of Object.keys(kinds)) element.classList.toggle(kind, kinds[kind]);
  if (kinds.away) return false;
  const { about, viewer } = page.run.rows[id], step = page.run.above + at + 1, name = live ? `step ${step}` : "undone";
  element.style.transform = `translateY(${rem(ROW * at + (live ? 0 : BORDER))})`;
  put(row.number, live ? String(step) : "undone");
  element.setAttribute("aria-label", `${[name, ...(isMarked(viewer) ? [page.run.names[viewer]] : []), about].join(", ")}.`);
  return crosses;
}

// Scrolls so far that an element is in sight.
function reveal(scroller, element) {
  if (!element) return;
  const box = element.getBoundingClientRect(), frame = scroller.getBoundingClientRect();
  const top = frame.top + (scroller.id === "lanes" ? byId("lane-heads").getBoundingClientRect().height : 0), bottom = frame.top + scroller.clientHeight;
  const around = scroller.id === "lanes" ? (bottom - top) / 3 : 2 * box.height; // lanes have the row in their middle
  if (box.top < top) scroller.scrollTop -= top - box.top + around;
  else if (box.bottom > bottom) scroller.scrollTop += box.bottom - bottom + around;
}

// A row is as wide as the lanes: what has to be in sight is what its step touches.
function revealRow(id) {
  if (!page.rows.has(id)) return;
  const lanes = byId("lanes"), { element } = page.rows.get(id);
  reveal(lanes, element);
  const boxes = all("circle, path", element).map((dot) => dot.getBoundingClientRect()).filter((box) => box.width), frame = lanes.getBoundingClientRect();
  const left = Math.min(...boxes.map((box) => box.left)), right = Math.max(...boxes.map((box) => box.right));
  const room = lanes.clientWidth / 5, gutter = part(element, ".gutter").getBoundingClientRect().width + 6 * HALF; // with a label
  if (right + room / 2 > frame.left + lanes.clientWidth) lanes.scrollLeft += Math.min(right + room - frame.left - lanes.clientWidth, left - room / 2 - frame.left);
  else if (left - Math.max(room / 2, gutter) < frame.left) lanes.scrollLeft -= frame.left - left + Math.max(room, gutter);
}

// The numbers of steps stay in sight where the lanes are scrolled to the right.
byId("lanes").addEventListener("scroll", () => {
  byId("rows").style.setProperty("--left", `${byId("lanes").scrollLeft / (SCALE * parseFloat(getComputedStyle(document.documentElement).fontSize))}px`);
});

// The rows that depend on a row are of its actor, or share a lane with it on which one of the two has written.
function markDependants(id) {
  const places = new Map(page.states[page.now].rows.map((row, at) => [row, at])), one = id === undefined ? null : page.run.rows[id];
  for (const [other, { element }] of page.rows) {
    const is = one !== null && places.get(other) > places.get(id) && depend(one, page.run.rows[other]);
    element.classList.toggle("depends", is);
    element.classList.toggle("chosen", other === id);
  }
}

const depend = (one, other) => one.actor === other.actor
  || one.dots.some(([lane, kind]) => other.dots.some(([its, how]) => lane === its && (kind === "wrote" || how === "wrote")));

const rowIn = (target) => {
  const row = target.closest && target.closest("#rows .row");
  return row ? Number(row.dataset.row) : undefined;
};

function focusRow(id, by) {
  const { rows } = page.states[page.now], next = rows[rows.indexOf(id) + by];
  if (!page.rows.has(next)) return;
  stopAt(next);
  page.rows.get(next).element.focus({ preventScroll: true });
  revealRow(next);
}

// The tab key comes to one row, and the arrows go on from there.
function stopAt(id) {
  if (page.tabStop) page.tabStop.setAttribute("tabindex", "-1");
  page.tabStop = page.rows.has(id) ? page.rows.get(id).element : null;
  if (page.tabStop) page.tabStop.setAttribute("tabindex", "0");
}

function pick(id) {
  const at = page.states[page.now].rows.indexOf(id);
  tell("picked", { row: id, step: isLive(page.states[page.now], at) ? page.run.above + at + 1 : 0 });
}
