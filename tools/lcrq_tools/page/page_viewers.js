// ---- The marks of viewers, on the page of a history: each is drawn once, in a list, and used elsewhere ----

function makeViewers() {
  const { marks, names } = page.run, viewers = Object.keys(marks.of).map(Number);
  document.body.classList.toggle("viewed", viewers.length > 0);
  document.body.style.setProperty("--asker-wide", marks.wide);
  document.body.style.setProperty("--asker-high", marks.high);
  byId("drawings").replaceChildren(...viewers.map(symbolOf));
  const [longest] = [...viewers].sort((one, other) => names[other].length - names[one].length || other - one);
  byId("askers").replaceChildren(hidden("span", ...namedMark(longest)), byId("asker"));
  byId("viewers").replaceChildren(...viewers.map((viewer) => {
    const item = make("li", "", ...namedMark(viewer));
    item.dataset.viewer = viewer;
    return item;
  }));
}

// The drawing of a mark, in the colours of the place that uses it.
function symbolOf(viewer) {
  const { wide, high, of } = page.run.marks, [outline, label, isDark] = of[viewer];
  const light = "var(--ground)", [ink, ground] = isDark ? [light, "currentColor"] : ["currentColor", light];
  const text = drawing("text", { y: 3.6, "font-size": 10, "font-weight": "bold", "text-anchor": "middle", fill: ink }, label);
  const frame = drawing("path", { d: outline, fill: ground, stroke: "currentColor", "stroke-width": 1.2 });
  return drawing("symbol", { id: `viewer-${viewer}`, viewBox: `${-wide / 2} ${-high / 2} ${wide} ${high}` }, frame, text);
}

// A viewer who is the only one has no mark.
const isMarked = (viewer) => viewer in page.run.marks.of;

// A mark in a row of the lanes, which has the viewer's name.
const markOf = (viewer) => drawing("use", { href: `#viewer-${viewer}`, y: -page.run.marks.high / 2, width: page.run.marks.wide, height: page.run.marks.high });

// A mark in a line of text.
const markIn = (viewer, values) => drawing("svg", { class: "asker", ...values }, drawing("use", { href: `#viewer-${viewer}` }));

// A mark with its name: for a screen reader its name alone.
const namedMark = (viewer) => (isMarked(viewer) ? [markIn(viewer, { "aria-hidden": "true" }), make("span", "", page.run.names[viewer])] : []);

const saidMark = (viewer) => (isMarked(viewer) ? [markIn(viewer, { role: "img", "aria-label": page.run.names[viewer] })] : []);
