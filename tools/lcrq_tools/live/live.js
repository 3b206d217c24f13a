// ---- A run that goes on: what is asked, and the events that tell what came of it ----

const CONTENT = "application/x-lcrqdb+json";
const live = { tab: "", viewer: 0, ended: "", source: null, queue: Promise.resolve(), waiting: [], isPast: false };
const SILENCE = 80; // milliseconds after which no other tab has the same name

page.allCards = true; // an actor has a card before its first call
page.isLive = true;

const newTab = () => [...crypto.getRandomValues(new Uint8Array(16))].map((byte) => byte.toString(16).padStart(2, "0")).join("");

// The name of this tab, which a reload keeps. A tab that was duplicated is told so by the other one, and takes a new name.
async function takeTab() {
  const tabs = new BroadcastChannel("lcrqdb tabs"), kept = sessionStorage.getItem("tab");
  const isTaken = new Promise((done) => {
    tabs.onmessage = ({ data }) => { if (data === `mine ${kept}`) done(true); };
    setTimeout(() => done(false), kept ? SILENCE : 0);
  });
  tabs.postMessage(`whose ${kept}`);
  live.tab = kept && !(await isTaken) ? kept : newTab();
  sessionStorage.setItem("tab", live.tab);
  tabs.onmessage = ({ data }) => { if (data === `whose ${live.tab}`) tabs.postMessage(`mine ${live.tab}`); };
}

const canAsk = () => Boolean(live.viewer) && !live.ended;
const atEnd = () => !live.isPast && page.now === page.states.length - 1;

async function post(name, fields) {
  const body = JSON.stringify({ tab: live.tab, viewer: live.viewer, ...fields });
  const answer = await fetch(name, { method: "POST", headers: { "Content-Type": CONTENT }, body }).catch(() => null);
  if (!answer) return { why: "the server doesn't answer" };
  const said = await answer.json().catch(() => ({ why: "no answer" }));
  return answer.ok ? said : { why: said.why || `it failed: ${answer.status}` };
}

// ---- Asking ----

// What a click, a key or the field asks. With "predict" it waits until it is to be shown.
function submit(line) {
  if (!canAsk()) return say(live.ended || "this page can only look");
  if (!atEnd()) return toEnd();
  if (byId("predict").checked) return wonder(line, () => ask(line));
  return ask(line);
}

async function ask(line) {
  const answer = await post("ask", { line });
  if (answer.why) say(answer.why);
  else if (answer.call === null) say(`${line}: ${answer.reply}${answer.expected ? `. ${answer.expected}` : ""}`);
  else await until(answer.call);
  if (answer.call) say(answer.took ? `${line}: ${answer.reply}, which takes back ${answer.took}` : "");
  return answer;
}

// Waits until a line is on the page.
const until = (line) => (isKnown(line) ? Promise.resolve() : new Promise((done) => { live.waiting.push([line, done]); }));
const isKnown = (line) => live.isPast || lastLine() >= line;

function wake() {
  const [ready, others] = [live.waiting.filter(([line]) => isKnown(line)), live.waiting.filter(([line]) => !isKnown(line))];
  live.waiting = others;
  for (const [, done] of ready) done();
}

function say(text) {
  put(byId("answer"), text);
}

// ---- What a line will do stays hidden until it is asked for ----

function wonder(line, then) {
  const { questions, any_question } = page.run;
  put(byId("asked"), line);
  put(byId("wonder"), questions[line.split(" ")[0]] || any_question);
  byId("question").hidden = false;
  live.veiled = then;
  byId("reveal").focus({ preventScroll: true });
}

function unveil() {
  const then = live.veiled;
  live.veiled = null;
  byId("question").hidden = true;
  if (then) then();
}

// Going a line on shows the question first, and then the line.
page.before = (at) => {
  if (live.veiled) return unveil() || true;
  if (!byId("predict").checked || at !== page.now + 1 || !page.states[at]) return false;
  wonder(page.states[at].text, () => show(at));
  return true;
};

// ---- Events ----

// Fetches the run as it is, or the moments around a line, and so many steps around the border.
async function fetchRun(line, rows = 200) {
  const run = await (await fetch(line === undefined ? "run" : `run?line=${line}&rows=${rows}`)).json();
  if (run.why) return say(run.why);
  live.isPast = line !== undefined;
  if (!live.isPast) live.line = run.line;
  load(run, line === undefined ? run.moments.length - 1 : line - run.first);
  drawPeople(run.people);
  put(byId("kept"), run.kept);
  wake();
  return run;
}

function toEnd() {
  if (live.isPast) return fetchRun();
  return show(page.states.length - 1);
}

async function taken(event) {
  const { change, line, fresh, people, ended } = JSON.parse(event.data), number = event.lastEventId.split(".")[0];
  if (people) drawPeople(people);
  if (ended) stop(ended);
  if (fresh !== undefined || (change && number !== live.number)) {
    live.number = number;
    await (live.isPast ? null : fetchRun());
  } else if (change) {
    live.line = line;
    takeChange(change, line);
  }
}

function takeChange(change, line) {
  if (live.isPast || line <= lastLine()) return drawWhereIs();
  const follows = atEnd();
  append(change);
  if (follows) show(page.states.length - 1);
  keepAddress();
  wake();
  return drawWhereIs();
}

function listen(run) {
  live.number = run.event.split(".")[0];
  live.source = new EventSource(`events?tab=${live.tab}&last=${run.event}`);
  live.source.onmessage = (event) => {
    live.queue = live.queue.then(() => taken(event)).catch((fault) => say(String(fault)));
  };
  live.source.onerror = () => say(live.ended || "the connection broke: it is tried again");
  live.source.onopen = () => say("");
}

function stop(why) {
  live.ended = why;
  live.source.close();
  say(`The run is over: ${why}.`);
  drawTools();
}

async function join(name) {
  const joined = await post("join", { name });
  if (joined.why) say(joined.why);
  live.viewer = joined.viewer || 0;
  drawTools();
}

async function begin() {
  await takeTab();
  await join("");
  const run = await fetchRun();
  listen(run);
  const { hash } = location;
  if (hash.startsWith("#run=") && run.line === 0 && canAsk()) await openText("link", hash);
}

document.addEventListener("keydown", (event) => {
  if (event.ctrlKey || event.altKey || event.metaKey || event.target.closest("input, select, textarea")) return;
  const actor = /^[1-9]$/.test(event.key) && page.cards.get(event.key), acts = { u: "undo", r: "redo" };
  if (actor) actByKey(actor);
  else if (acts[event.key]) submit(acts[event.key]);
  else if (event.key === "/") byId("line").focus();
  else if (event.key === "Escape") closeMenu();
  else return;
  event.preventDefault();
});
