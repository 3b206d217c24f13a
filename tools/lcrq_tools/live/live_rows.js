// ---- What can be asked of a step, of a place, and of bookmarks ----

// The steps that can be undone alone: no later live step depends on them.
function freeSteps({ rows, live: count }) {
  const listed = rows.slice(0, Math.max(0, count - page.run.above)), actors = new Set(), lanes = new Map(), free = new Set();
  for (const id of listed.toReversed()) {
    const { actor, dots } = page.run.rows[id];
    const isHeld = ([lane, kind]) => lanes.has(lane) && (kind === "wrote" || lanes.get(lane));
    if (!actors.has(actor) && !dots.some(isHeld)) free.add(id);
    actors.add(actor);
    for (const [lane, kind] of dots) lanes.set(lane, lanes.get(lane) || kind === "wrote");
  }
  return free;
}

// The number of a step that can be undone alone is framed.
function drawFrames(state) {
  const free = freeSteps(state);
  for (const [id, row] of page.rows) {
    if (!row.frame && free.has(id)) {
      row.frame = drawing("rect", { class: "frame", y: 2 - HALF, height: ROW - 4, rx: 3 });
      row.number.before(row.frame);
    }
    if (!row.frame) continue;
    row.frame.classList.toggle("away", !free.has(id));
    row.frame.setAttribute("x", page.run.layout.numbers - 32);
    row.frame.setAttribute("width", 36);
  }
}

// A refused undo is shown as a bar along a lane that both steps touch.
function drawBar({ named, why, rows }) {
  for (const bar of all("#rows > .bar-to")) bar.remove();
  if (!why || named.length !== 2) return;
  const [one, other] = named.map((id) => page.run.rows[id]);
  const shared = one.dots.find(([lane, kind]) => other.dots.some(([its, how]) => its === lane && (kind === "wrote" || how === "wrote")));
  const x = page.lanes.get(one.actor === other.actor ? `actor ${one.actor}` : shared && shared[0]);
  if (x === undefined) return;
  const [top, end] = named.map((id) => ROW * rows.indexOf(id) + HALF), bar = make("div", "bar-to");
  Object.assign(bar.style, { left: rem(x - 2.5), width: rem(5), top: rem(top), height: rem(end - top) });
  byId("rows").append(bar);
}

// ---- Steps above those that are listed ----

const MORE = 200; // steps that are listed beside the others when the lanes are scrolled to their top

async function listMore() {
  const lanes = byId("lanes"), height = lanes.scrollHeight, { line, rows } = page.states[page.now];
  if (live.lists || !page.run.above) return;
  live.lists = true;
  await fetchRun(line, rows.length + MORE);
  lanes.scrollTop += lanes.scrollHeight - height;
  live.lists = false;
}

byId("lanes").addEventListener("scroll", () => { if (byId("lanes").scrollTop === 0) listMore(); });

// ---- The menu of a step ----

const menu = make("div", "menu");
menu.setAttribute("role", "menu");
menu.hidden = true;
document.body.append(menu);

function closeMenu() {
  if (menu.hidden) return;
  menu.hidden = true;
  if (live.menuRow) live.menuRow.focus({ preventScroll: true });
}

function rowActs(id, step) {
  const state = page.states[page.now], at = state.rows.indexOf(id), live_count = state.live - page.run.above;
  if (!step) return [["redo up to here", () => submit(`forward ${at - live_count + 1}`)]];
  const alone = freeSteps(state).has(id) ? "undo this alone" : "undo this alone (a later step depends on it)";
  return [
    [alone, () => submit(`undo ${step}`)], ["undo with what depends on it", () => submit(`roll ${step}`)],
    ["where did the value come from", () => submit(`origin ${step}`)], ["who wrote this before", () => markWriter(id, at)],
  ];
}

function openMenu({ detail: { row, step } }) {
  if (!atEnd() || !canAsk()) return;
  const { element } = page.rows.get(row), box = part(element, ".number").getBoundingClientRect();
  menu.replaceChildren(...rowActs(row, step).map(([text, act]) => {
    const item = button(text, () => { closeMenu(); act(); });
    item.setAttribute("role", "menuitem");
    return item;
  }));
  menu.hidden = false;
  live.menuRow = element;
  menu.style.left = `${Math.min(box.right + 12, innerWidth - menu.offsetWidth - 8)}px`;
  menu.style.top = `${Math.min(box.bottom + 2, innerHeight - menu.offsetHeight - 8)}px`;
  menu.firstChild.focus({ preventScroll: true });
}

// The last row above on which a place of a step was written, as the lanes show it.
function markWriter(id, at) {
  const lanes = new Set(page.run.rows[id].dots.map(([lane]) => lane));
  const writes = (other) => page.run.rows[other].dots.some(([lane, kind]) => kind === "wrote" && lanes.has(lane));
  const found = page.states[page.now].rows.slice(0, at).findLast(writes);
  if (found === undefined) return say("no step above has written there");
  say("");
  return markRow(found);
}

function markRow(id) {
  revealRow(id);
  stopAt(id);
  page.rows.get(id).element.focus({ preventScroll: true });
}

menu.addEventListener("keydown", (event) => {
  const items = [...menu.children], at = items.indexOf(document.activeElement);
  const moves = { ArrowDown: at + 1, ArrowUp: at - 1 };
  if (event.key in moves) items.at(moves[event.key] % items.length).focus();
  if (event.key === "Escape" || event.key === "Tab") closeMenu();
  if (event.key in moves || event.key === "Escape") event.preventDefault();
  event.stopPropagation();
});
document.addEventListener("picked", openMenu);
document.addEventListener("pointerdown", (event) => { if (!menu.contains(event.target)) menu.hidden = true; });

// A click at a place asks who wrote it last.
byId("queue").addEventListener("click", (event) => {
  const spot = event.target.closest("[data-place]:not([data-place=''])");
  if (spot && canAsk() && atEnd()) submit(`writer ${spot.dataset.place}`);
});
