// ---- Going along the moments of a run ----

// Draws a run from the beginning on, in the place of any that was drawn, and shows a moment of it.
function load(run, at = asked(run)) {
  const maps = ["segments", "slots", "spots", "pins", "points", "calls", "cards", "rows", "texts"].map((name) => [name, new Map()]);
  Object.assign(page, { run, states: [], items: [], now: -1, most: 0, tabStop: null }, Object.fromEntries(maps));
  for (const name of ["lines", "segments", "slots", "chips", "code", "rows"]) byId(name).replaceChildren();
  for (const sizer of all("#sentences > .sizer, #wheres > .sizer, #commands > .sizer")) sizer.remove();
  byId("array").hidden = true;
  document.title = run.title;
  put(byId("title"), run.title);
  put(byId("room"), run.room);
  makeViewers();
  makeCode();
  for (const change of run.moments) take(change);
  drawLayout();
  for (const id of Object.keys(run.rows)) makeRow(Number(id));
  drawEnds();
  show(within(at));
  tell("loaded");
}

// Adds the moment of a line that was just run, with what else it has changed. It isn't shown so far.
function append({ moment, rows = {}, layout, room }) {
  const { run, states, now } = page;
  if (room) put(byId("room"), run.room = room);
  Object.assign(run.rows, rows);
  take(moment);
  if (layout) run.layout = layout;
  if (layout) drawLayout();
  else drawHeight();
  for (const id of Object.keys(rows)) makeRow(Number(id));
  drawEnds();
  drawLanes(states[now], states[now - 1]);
  tell("appended", { at: states.length - 1 });
}

// The next moment, whole, gets its line in the list, and room for what is new in it.
function take(change) {
  const before = page.states.at(-1) || { places: {}, actors: {}, rows: [] }, [kept, others] = change.rows || [before.rows.length, []];
  const places = { ...before.places, ...change.places }, actors = { ...before.actors, ...change.actors };
  const state = { ...before, ...change, places, actors, rows: [...before.rows.slice(0, kept), ...others] };
  page.states.push(state);
  page.items.push(lineOf(state));
  byId("lines").append(page.items.at(-1));
  page.most = Math.max(page.most, state.rows.length);
  roomInQueue(state);
  roomForActors(change.actors || {});
  widen(byId("sentences"), state.said, 12, "p");
}

function lineOf({ line, text, reply, why, viewer, said, words }) {
  const told = [...saidMark(viewer), make("code", "", text), make("code", "", reply)];
  const button = make("button", "", make("span", "no", line), ...(line ? told : [make("span", "words", "before the first line")]));
  button.tabIndex = -1;
  button.title = said;
  button.type = "button";
  const did = page.isLive && words && !why ? [make("p", "did", words)] : [];
  return make("li", line ? (why ? "refused" : "") : "start", button, ...(why ? [make("p", "why", why)] : did));
}

const lastLine = () => page.states.at(-1).line;

// The ends of the slider, and the room of what names them.
function drawEnds() {
  byId("slider").min = page.run.first;
  byId("slider").max = lastLine();
  widen(byId("wheres"), `line ${lastLine()} of ${lastLine()}`, 1);
  widen(byId("commands"), page.run.command.join(lastLine()), 1, "code");
  drawWhere();
}

function drawWhere() {
  if (page.now >= 0) put(byId("where"), `line ${page.states[page.now].line} of ${lastLine()}`);
}

function show(at) {
  if (at === page.now) return;
  const { states, items, run } = page, state = states[at];
  for (const item of [items[page.now], items[at]].filter(Boolean)) {
    part(item, "button").tabIndex = item === items[at] ? 0 : -1;
    part(item, "button").setAttribute("aria-current", item === items[at] ? "step" : "false");
  }
  drawQueue(state);
  drawActors(state);
  drawLanes(state, states[at - 1]);
  stopAt(page.rows.has(state.last) ? state.last : state.rows[0]);
  page.now = at;
  byId("slider").value = state.line;
  byId("slider").setAttribute("aria-valuetext", state.said);
  byId("asker").replaceChildren(...namedMark(state.viewer));
  drawWhere();
  put(byId("said"), state.said);
  put(byId("command"), run.command.join(state.line));
  put(byId("copy"), "copy");
  markDependants();
  reveal(byId("lines"), items[at]);
  tell("shown", { at });
}

const within = (at) => Math.max(0, Math.min(page.states.length - 1, at));

function go(at) {
  if (page.before(at)) return;
  show(within(at));
  keepAddress();
}

// Browsers refuse more than a few changes of the address a second, as a key that is held down makes.
function keepAddress() {
  clearTimeout(page.later);
  page.later = setTimeout(() => history.replaceState(null, "", page.address()), 150);
}

// The moment that the address asks for.
function asked({ first }) {
  const found = /^#line=(\d+)$/.exec(location.hash);
  return found ? Number(found[1]) - first : 0;
}

function pressed(event) {
  if (event.ctrlKey || event.altKey || event.metaKey || event.target.closest("input, select, textarea")) return;
  const row = rowIn(event.target), isLine = event.target.closest("#lines"), { now } = page;
  const moves = { ArrowRight: now + 1, ArrowLeft: now - 1, PageDown: now + 1, PageUp: now - 1, Home: 0, End: page.states.length - 1 };
  if (isLine) Object.assign(moves, { ArrowDown: now + 1, ArrowUp: now - 1 });
  if (event.key in moves) go(moves[event.key]);
  else if (row !== undefined && ["ArrowDown", "ArrowUp"].includes(event.key)) focusRow(row, event.key === "ArrowDown" ? 1 : -1);
  else if (row !== undefined && ["Enter", " "].includes(event.key)) pick(row);
  else return;
  if (isLine) part(page.items[page.now], "button").focus({ preventScroll: true });
  event.preventDefault();
}

async function copy() {
  try {
    await navigator.clipboard.writeText(byId("command").textContent);
    put(byId("copy"), "copied");
  } catch {
    getSelection().selectAllChildren(byId("command"));
  }
}

// A handout has the queue at the line that is shown, and at each bookmark: it is drawn there once, and copied.
function handOut() {
  const now = page.now, moments = [...page.states.entries()].filter(([at, { reply }]) => at === now || reply.startsWith("marked "));
  byId("handout").replaceChildren(...moments.map(([at, { said }]) => {
    show(at);
    const figure = make("figure", "", make("figcaption", "", said), byId("queue").cloneNode(true), byId("chips").cloneNode(true));
    for (const element of all("[id]", figure)) element.removeAttribute("id");
    return figure;
  }));
  show(now);
}

document.addEventListener("keydown", pressed);
byId("slider").addEventListener("input", () => go(Number(byId("slider").value) - page.run.first));
byId("lines").addEventListener("click", (event) => {
  const at = event.target.closest("button") ? page.items.indexOf(event.target.closest("li")) : -1;
  if (at >= 0) go(at);
});
for (const name of ["mouseover", "focusin"]) byId("rows").addEventListener(name, (event) => markDependants(rowIn(event.target)));
for (const name of ["mouseout", "focusout"]) byId("rows").addEventListener(name, () => markDependants());
byId("rows").addEventListener("click", (event) => {
  if (rowIn(event.target) !== undefined) pick(rowIn(event.target));
});
// A click at a step leads to the line that made it, unless a script of its own offers more.
document.addEventListener("picked", ({ detail: { row } }) => {
  const at = page.states.findIndex(({ last }) => last === row);
  if (!page.isLive && at >= 0) go(at);
});
byId("copy").addEventListener("click", copy);
addEventListener("hashchange", () => show(within(asked(page.run))));
addEventListener("beforeprint", handOut);
// A script of its own may keep a page from going on to a line, and give it another address.
page.before = () => false;
page.address = () => `#line=${page.states[page.now].line}`;
if (byId("run").textContent) load(JSON.parse(byId("run").textContent));
