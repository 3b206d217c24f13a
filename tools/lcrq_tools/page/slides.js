// Goes along the slides of a page: page.js shows the moments. A slide shows the one before its line, then its own.
{
  const slides = JSON.parse(byId("slides").textContent);
  let slide = 0, shown = 0; // which slide, and how much of it: the line, the question, or all

  // The largest size at which queue and actors are whole on the screen.
  const fit = () => {
    const room = document.querySelector(".look > section");
    for (const size of [1, 0.9, 0.8, 0.7, 0.6]) {
      for (const inside of room.children) inside.style.zoom = size;
      if (room.scrollHeight <= room.clientHeight) return;
    }
  };

  // The lanes are as wide as their room.
  const fitLanes = () => {
    const lanes = byId("lanes"), insides = [...lanes.children];
    for (const inside of insides) inside.style.zoom = 1;
    const size = lanes.clientWidth / byId("lane-heads").getBoundingClientRect().width;
    for (const inside of insides) inside.style.zoom = size;
  };

  const draw = () => {
    const { at, text, question } = slides[slide], room = byId("slide");
    show(shown === 2 ? at : at - 1);
    put(part(room, ".where"), `slide ${slide + 1} of ${slides.length}`);
    put(part(room, ".typed code"), `${page.run.first + at}  ${text}`);
    put(part(room, ".asked"), shown ? question : "");
    put(part(room, ".told"), shown === 2 ? page.states[at].said : "");
    fit();
  };

  const turn = (by) => {
    const next = Math.max(0, Math.min(slides.length - 1, slide + by));
    if (next !== slide) [slide, shown] = [next, 0];
    draw();
  };

  const moves = {
    ArrowRight: () => turn(1), PageDown: () => turn(1), ArrowLeft: () => turn(-1), PageUp: () => turn(-1),
    Home: () => turn(-slides.length), End: () => turn(slides.length),
    Enter: () => { shown = Math.min(2, shown + 1); draw(); }, ArrowUp: () => { shown = Math.max(0, shown - 1); draw(); },
  };
  moves.ArrowDown = moves.Enter;

  // before the page's own keys
  addEventListener("keydown", (event) => {
    if (event.ctrlKey || event.altKey || event.metaKey) return;
    const move = event.key === " " ? () => turn(event.shiftKey ? -1 : 1) : moves[event.key];
    if (!move) return;
    move();
    event.preventDefault();
    event.stopImmediatePropagation();
  }, true);
  addEventListener("hashchange", draw);
  addEventListener("resize", () => { fitLanes(); fit(); });
  const asked = /^#slide=(\d+)(?:\.([0-2]))?$/.exec(location.hash);
  if (asked) [slide, shown] = [Math.min(slides.length, Math.max(1, Number(asked[1]))) - 1, Number(asked[2] || 0)];
  fitLanes();
  draw();
}
