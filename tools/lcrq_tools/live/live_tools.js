// ---- The tools above the queue: bookmarks, chance, sharing, and how the page looks ----

// ---- Bookmarks ----

function bookmarkOf(name) {
  const chosen = make("input");
  Object.assign(chosen, { type: "checkbox", title: `compare ${name} with another one`, ariaLabel: `compare ${name}`, value: name });
  chosen.addEventListener("change", compare);
  return make("span", "mark", chosen, button(name, () => submit(`goto ${name}`), `go to ${name}`), button("×", () => submit(`drop ${name}`), `remove ${name}`));
}

function compare() {
  const chosen = all("#marks input:checked");
  if (chosen.length < 2) return;
  const [one, other] = chosen.map((box) => box.value);
  for (const box of chosen) box.checked = false;
  submit(`same ${one} ${other}`);
}

function drawMarks({ marks = [] }) {
  const key = marks.join(" ");
  if (byId("marks").dataset.key === key) return;
  byId("marks").dataset.key = key;
  byId("marks").replaceChildren(...marks.map(bookmarkOf));
  const free = [..."abcdefghijklmnopqrstuvwxyz"].find((letter) => !marks.includes(letter));
  byId("name").value = free || "";
}

byId("set").addEventListener("submit", (event) => {
  event.preventDefault();
  submit(`mark ${byId("name").value.trim()}`);
});

// ---- Steps at random ----

// A generator of Tommy Ettinger's (mulberry32): the same seed gives the same numbers.
function randomOf(seed) {
  let state = seed >>> 0;
  return () => {
    state = (state + 0x6d2b79f5) >>> 0;
    let mixed = Math.imul(state ^ (state >>> 15), state | 1);
    mixed ^= mixed + Math.imul(mixed ^ (mixed >>> 7), mixed | 61);
    return ((mixed ^ (mixed >>> 14)) >>> 0) / 4294967296;
  };
}

// A line at random for one of the actors that can go on; nothing where none can, or one has a choice and it stops there.
function randomLine(random, stops) {
  const abouts = Object.entries(page.states.at(-1).actors).filter(([, about]) => about && about.acts);
  if (!abouts.length || (stops && abouts.some(([, about]) => about.acts === "choice"))) return "";
  const [actor, { acts }] = abouts[Math.floor(random() * abouts.length)];
  return acts === "step" ? `go ${actor}` : `starve ${actor} ${random() < 0.5 ? "yes" : "no"}`;
}

async function walk(count, seed, pace, stops) {
  const random = randomOf(seed);
  await post("note", { text: `${count} steps at random, seed ${seed}${stops ? ", up to a choice" : ""}` });
  for (let step = 0; step < count && live.walks; step += 1) {
    const line = randomLine(random, stops), answer = line ? await ask(line) : null;
    if (!answer || answer.why || answer.reply.startsWith("refused ")) break;
    if (pace) await new Promise((done) => { setTimeout(done, pace); });
  }
}

byId("chance").addEventListener("submit", async (event) => {
  event.preventDefault();
  live.walks = !live.walks && canAsk() && atEnd();
  if (!live.walks) return;
  put(byId("walk"), "stop");
  await walk(Number(byId("count").value), Number(byId("seed").value), Number(byId("pace").value), byId("stops").checked);
  live.walks = false;
  byId("seed").value = Number(byId("seed").value) + 1;
  put(byId("walk"), "go");
});

// ---- Sharing ----

function drawPeople(people) {
  const rows = Object.entries(people).map(([viewer, { name, here }]) => {
    const is = Number(viewer) === live.viewer;
    return make("li", here ? "" : "left", `${name}${is ? " (you)" : ""}${here ? "" : ", not here"}`);
  });
  byId("people").replaceChildren(...rows);
  Object.assign(page.run.names, Object.fromEntries(Object.entries(people).map(([viewer, { name }]) => [viewer, name])));
  makeViewers();
  const mine = people[live.viewer];
  put(byId("you"), mine ? `you are ${mine.name}` : "you can only look");
}

const MOST_LINKED = 400; // lines of a link

// A line of a link: a step by its actor alone, and others with `_` in the place of blanks.
const shortLine = (line) => (/^go [0-9]+$/.test(line) ? line.slice(3) : encodeURIComponent(line).replaceAll("_", "%5F").replaceAll("*", "%2A").replaceAll("%20", "_"));

// All lines in a short form, those that follow themselves counted.
function shortForm(lines) {
  const runs = [];
  for (const line of lines.map(shortLine)) {
    if (runs.length && runs.at(-1)[0] === line) runs.at(-1)[1] += 1;
    else runs.push([line, 1]);
  }
  return `#run=a${page.run.actors}r${page.run.ring};${runs.map(([line, count]) => (count > 1 ? `${line}*${count}` : line)).join(";")}`;
}

async function allLines() {
  return (await (await fetch("lines")).json()).map(([, line]) => line);
}

// The address carries the schedule while it is short.
page.address = () => (page.run.first === 0 && !page.run.trace && page.states.length <= MOST_LINKED + 1 ? shortForm(page.states.slice(1).map(({ text }) => text)) : "#");

async function toClipboard(text, what) {
  await navigator.clipboard.writeText(text);
  say(`${what} is copied`);
}

async function openText(name, text) {
  const said = await post("open", { name, text });
  if (said.why) say(said.why);
}

byId("link").addEventListener("click", async () => {
  const lines = await allLines();
  if (page.run.trace || lines.length > MOST_LINKED) say(`a link holds ${MOST_LINKED} lines of a fresh world: download the script`);
  else toClipboard(`${location.href.split("#")[0]}${shortForm(lines)}`, "the link");
});
byId("copied").addEventListener("click", async () => toClipboard((await allLines()).map((line) => `${line}\n`).join(""), "the script"));
byId("called").addEventListener("submit", (event) => {
  event.preventDefault();
  join(byId("person").value);
});
byId("open").addEventListener("submit", async (event) => {
  event.preventDefault();
  const [file] = byId("file").files, link = byId("pasted").value.trim();
  if (file) await openText(file.name.replace(/\.[a-z]+$/, ""), await file.text());
  else if (link) await openText("link", link.slice(link.indexOf("#")));
});
byId("end").addEventListener("click", () => post("end", {}));

// ---- Any line ----

byId("any").addEventListener("submit", (event) => {
  event.preventDefault();
  const line = byId("line").value.trim().replace(/ +/g, " ");
  byId("line").value = "";
  if (line) submit(line);
});
byId("line").addEventListener("input", async () => {
  const line = byId("line").value, { words = [] } = await post("complete", { line });
  const begin = line.slice(0, line.lastIndexOf(" ") + 1);
  byId("words").replaceChildren(...words.map((word) => Object.assign(make("option"), { value: `${begin}${word.trim()}` })));
});
byId("line").addEventListener("keydown", (event) => { if (event.key === "Escape") byId("line").blur(); });

// ---- How the page looks ----

byId("text").addEventListener("change", () => { document.documentElement.className = byId("text").value; });
byId("full").addEventListener("click", () => (document.fullscreenElement ? document.exitFullscreen() : document.documentElement.requestFullscreen()));
byId("reveal").addEventListener("click", unveil);
byId("last").addEventListener("click", toEnd);
for (const name of ["undo", "redo"]) byId(name).addEventListener("click", () => submit(name));

// ---- Lines before those that the page knows ----

const MOST_EARLIER = 400;

async function loadEarlier(first) {
  const from = Math.max(1, first - MOST_EARLIER), rows = await (await fetch(`lines?from=${from}&to=${first}`)).json();
  const items = rows.map(([viewer, text, reply], at) => {
    const item = lineOf({ line: from + at, text, reply, why: "", viewer, said: "" });
    item.dataset.line = from + at;
    return item;
  });
  part(byId("lines"), ".earlier").replaceWith(...(from > 1 ? [earlierOf(from - 1)] : []), ...items);
  parts.delete(byId("lines"));
}

function earlierOf(first) {
  const item = make("li", "earlier", button(`lines 1 to ${first}`, () => loadEarlier(first)));
  return item;
}

byId("lines").addEventListener("click", (event) => {
  const item = event.target.closest("li[data-line]");
  if (item) fetchRun(Number(item.dataset.line));
});

// ---- All of it, at each moment ----

function drawWhereIs() {
  const last = live.isPast ? live.line : lastLine(), { line } = page.states[page.now];
  byId("past").hidden = atEnd();
  put(byId("here"), `Line ${line} of ${last} is shown.`);
}

function drawTools() {
  if (!page.run) return;
  const is = canAsk() && atEnd();
  for (const one of all("#undo, #redo, #any button, #set button, #walk, #marks button, #marks input")) one.disabled = !is;
  document.body.classList.toggle("looking", !live.viewer);
  for (const [actor, card] of page.cards) drawActs(actor, card, page.states[page.now].actors[actor]);
}

document.addEventListener("loaded", () => {
  if (page.run.first > 1) byId("lines").prepend(earlierOf(page.run.first - 1));
});
document.addEventListener("shown", () => {
  const state = page.states[page.now];
  menu.hidden = true;
  drawFrames(state);
  drawBar(state);
  drawMarks(page.states.at(-1));
  drawWhereIs();
  drawTools();
});
begin();
