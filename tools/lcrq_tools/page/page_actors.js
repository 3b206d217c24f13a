// ---- Actors: a card of each, and the lines of the pseudo-code at which they are ----

const MOST_BESIDE = 5; // cards, on a wide screen

const stackOf = (kind) => make("span", `stack ${kind}`, make("span", "text"));

// The lines of a control point.
function pointOf(kind, name, text, ...more) {
  const point = make("div", kind, make("b", "", name), make("code", "", text), ...more);
  point.dataset.point = name;
  return point;
}

function makeCode() {
  byId("code").append(...page.run.code.map(({ head, call, points }) => {
    const steps = points.map(([name, text]) => pointOf("step", name, text, make("span", "pins p-point"), make("span", "who")));
    points.forEach(([name, text], at) => page.points.set(name, { text, step: steps[at] }));
    const column = make("div", "", make("h3", "", head), ...steps);
    column.hidden = true;
    page.calls.set(call, column);
    return column;
  }));
}

// The card of an actor. An actor that is in no call has one from its first call on, or from the first moment on where
// a script has set `page.allCards`.
function cardOf(actor) {
  if (!page.cards.has(actor)) {
    const head = make("div", "chip-head", make("span", "disc", actor), make("b", "", `actor ${actor}`), stackOf("call"));
    const card = make("li", `chip ${colour(actor)}`, head, make("div", "stack points"), make("div", "chip-foot", stackOf("note"), stackOf("words")));
    card.dataset.actor = actor;
    page.cards.set(actor, card);
    widen(part(card, ".call"), "in no call");
    order(byId("chips"), [...page.cards.keys()].sort((one, other) => one - other).map((it) => page.cards.get(it)));
  }
  return page.cards.get(actor);
}

// Makes what these actors have at a moment, so that there is room for it before it is shown.
function roomForActors(actors) {
  for (const [actor, about] of Object.entries(actors)) {
    if (!about && !page.allCards) continue;
    const card = cardOf(actor);
    if (!about) continue;
    for (const name of ["call", "words", "note"]) widen(part(card, `.${name}`), about[name]);
    const points = part(card, ".points"), { point } = about;
    if (!all(".point", points).some((it) => it.dataset.point === point)) points.append(pointOf("point", point, page.points.get(point).text));
    page.calls.get(about.call.split(" ")[0]).hidden = false;
  }
  const count = Math.max(1, page.cards.size);
  byId("chips").style.setProperty("--beside", Math.ceil(count / Math.ceil(count / MOST_BESIDE)));
  const idle = Object.keys(page.states.at(-1).actors).filter((actor) => !page.cards.has(actor));
  put(byId("idle"), idle.length ? `In no call: actor${idle.length > 1 ? "s" : ""} ${idle.join(", ")}.` : "");
}

function drawActors({ actors }) {
  for (const [actor, card] of page.cards) {
    const about = actors[actor], texts = about || { call: "in no call", words: "", note: "" };
    card.classList.toggle("idle", !about);
    for (const name of ["call", "words", "note"]) put(part(card, `.${name} > .text`), texts[name]);
    for (const code of part(card, ".points").children) code.classList.toggle("here", Boolean(about) && code.dataset.point === about.point);
  }
  for (const [point, { step }] of page.points) {
    const here = Object.keys(actors).filter((actor) => actors[actor] && actors[actor].point === point);
    step.classList.toggle("here", here.length > 0);
    part(step, ".pins").append(...here.map((actor) => pinOf(actor, "at ")));
    put(part(step, ".who"), here.map((actor) => `actor ${actor}`).join(", "));
  }
}
