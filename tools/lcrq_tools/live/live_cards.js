// ---- What an actor may do next, as buttons of its card ----

function button(text, act, about) {
  const made = make("button", "", text);
  made.type = "button";
  made.addEventListener("click", act);
  if (about) made.title = about;
  return made;
}

// The buttons of an actor that is in a call, in no call, or at a choice.
const ACTS = {
  step: (actor) => [button("step", () => submit(`go ${actor}`))],
  choice: (actor) => [button("close the ring", () => submit(`starve ${actor} yes`)), button("draw again", () => submit(`starve ${actor} no`))],
  none: () => [],
  idle: (actor) => {
    const value = make("input", "value-of");
    Object.assign(value, { inputMode: "numeric", size: 3, value: nextValue(), ariaLabel: `value for actor ${actor}` });
    const call = (word) => () => {
      submit(`${word} ${actor} ${value.value.trim()}`);
      value.value = nextValue(value.value);
    };
    value.addEventListener("keydown", (event) => { if (event.key === "Enter") call("enq")(); });
    return [
      value, button("enqueue", call("enq")), button("dequeue", () => submit(`deq ${actor}`)),
      button("to the array", call("aenq"), "enqueue into the array"), button("from the array", () => submit(`adeq ${actor}`), "dequeue from the array"),
    ];
  },
};

// A value that no line had so far.
function nextValue(used) {
  const given = page.states.flatMap(({ text }) => (/^a?enq /.test(text) ? [Number(text.split(" ")[2])] : []));
  return String(Math.max(0, Number(used) || 0, ...given.filter((value) => value < 1e15)) + 1);
}

const actsOf = (about) => (about ? about.acts || "none" : "idle");

function drawActs(actor, card, about) {
  const acts = card.querySelector(":scope > .acts") || card.appendChild(make("div", "acts")), kind = actsOf(about);
  if (acts.dataset.kind !== kind) {
    const hadFocus = acts.contains(document.activeElement);
    acts.dataset.kind = kind;
    acts.replaceChildren(...ACTS[kind](actor));
    if (hadFocus && acts.firstChild) acts.querySelector("button").focus({ preventScroll: true });
  }
  const words = about ? `${about.point} ${page.points.get(about.point).text.trim()}` : "";
  for (const one of all("button", acts)) {
    one.disabled = !canAsk() || !atEnd();
    one.setAttribute("aria-label", `actor ${actor}: ${one.textContent}${words ? `, ${words}` : ""}`);
  }
}

// A key steps the actor; where it has no step, its first field or button gets the focus.
function actByKey(card) {
  const acts = card.querySelector(".acts");
  if (acts.dataset.kind === "step") submit(`go ${card.dataset.actor}`);
  else (acts.querySelector("input, button") || card).focus();
}

// The place that the actor of a card would touch is marked while the card is pointed at or focused.
function aim(event) {
  for (const element of all("#queue .aimed")) element.classList.remove("aimed");
  const card = event.type.match(/over|in$/) && event.target.closest(".chip");
  const about = card && page.states[page.now].actors[card.dataset.actor], place = about && page.spots.get(about.place);
  if (place) place.classList.add("aimed");
}

for (const name of ["mouseover", "mouseout", "focusin", "focusout"]) byId("chips").addEventListener(name, aim);
