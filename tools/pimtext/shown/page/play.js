// The moves, what the page does, and its keys.

// ---- moves

let rowsOfMoves = [];
function listMoves() {
  const run = runs[0], noted = new Set(run.notes.map(([move]) => move));
  byId("moves").innerHTML = [0, ...run.moves.keys()].map((_, n) => {
    const kind = [n && run.dull[n] ? "dull" : "", run.odd[n] ? "odd" : noted.has(n) && n ? "noted" : ""].join(" ");
    const title = escaped(run.title(n));
    return `<div class="${kind}" data-n="${n}" title="${title}"><i>${n}</i>${title}</div>`;
  }).join("");
  rowsOfMoves = [...byId("moves").children];
  for (const row of rowsOfMoves) row.onclick = () => go(+row.dataset.n);
}
function markMove() {
  for (const row of byId("moves").querySelectorAll(".one")) row.remove();
  const old = byId("moves").querySelector(".now");
  if (old) old.classList.remove("now");
  const row = rowsOfMoves[shown.move];
  if (!shown.single) row.classList.add("now");
  if (shown.single && shown.move) listDeliveries(row);
  row.scrollIntoView({ block: "nearest" });
}
function listDeliveries(row) {
  const run = runs[0], [, first, count] = run.moves[shown.move - 1];
  let last = row;
  for (let at = first; at < first + Math.min(count, 600); at++) {
    const made = document.createElement("div");
    made.className = `one${at + 1 === shown.at ? " now" : ""}${run.steps[at][8] ? " odd" : ""}`;
    made.textContent = run.answer(at) || run.title(shown.move);
    made.title = made.textContent;
    made.onclick = () => go(shown.move, at + 1, true);
    last.after(made);
    last = made;
    if (at + 1 === shown.at) made.scrollIntoView({ block: "nearest" });
  }
}

// ---- the whole

const maps = [];
function makeMaps() {
  byId("maps").className = runs.length > 1 ? `two${DATA.box[2] > 1.6 * DATA.box[3] ? " tall" : ""}` : "";
  for (const run of runs) {
    const figure = byId("maps").appendChild(document.createElement("figure"));
    if (runs.length > 1) figure.appendChild(document.createElement("figcaption")).textContent = run.name;
    maps.push(new Picture(run, figure));
  }
}
function begin() {
  measure(maps[0].svg);
  if (view.unit > MOST_AT_FIRST) zoom(MOST_AT_FIRST / view.unit);
}
function drawMaps() {
  measure(maps[0].svg);
  for (const map of maps) map.draw();
}
function zoomBy(factor) {
  if (factor) zoom(factor);
  else view.box = [...DATA.box];
  drawMaps();
}
// A pane has another size while its border is dragged.
const PANES = { left: event => event.clientX, right: event => innerWidth - event.clientX,
  low: event => innerHeight - event.clientY };
function listenPanes() {
  for (const id in PANES) byId(id).onpointerdown = event => {
    const border = byId(id), most = (id === "low" ? innerHeight : innerWidth) * .6;
    border.setPointerCapture(event.pointerId);
    border.classList.add("on");
    border.onpointermove = moved => {
      document.body.style.setProperty(`--${id}`, `${Math.min(most, Math.max(60, PANES[id](moved)))}px`);
      drawMaps();
    };
    border.onpointerup = () => { border.onpointermove = null; border.classList.remove("on") };
  };
  window.onresize = drawMaps;
}
function show() {
  const run = current(), at = position(run), start = startOf(run);
  [...byId("maps").children].forEach((figure, n) => figure.classList.toggle("chosen", n === shown.run));
  legend();
  packetsPanel(run, start, at);
  byId("side").innerHTML = differencesPanel() + hostsPanel(run, at) + notesPanel(run) + changesPanel(run, start, at) +
      routerPanel(run, start, at);
  if (byId("goods")) byId("goods").ontoggle = event => { shown.goods = event.target.open };
  for (const each of byId("side").querySelectorAll("[data-move]")) each.onclick = () => go(+each.dataset.move);
  const move = moveOf(run), single = shown.single && run === runs[0] ? ` · ${run.answer(at - 1) || ""}` : "";
  byId("caption").textContent = (move ? `Move ${move}. ` : "") + run.title(move) + single;
  drawMaps();
  byId("count").textContent = `${shown.move} of ${runs[0].moves.length} · ${seconds(runs[0].moment(shown.move))}`;
  byId("slider").value = shown.move;
  byId("single").classList.toggle("on", shown.single);
  markMove();
}
// Shows a move, whole or up to one of its answers.
function go(move, at = null, isMoving = false) {
  shown.move = Math.max(0, Math.min(runs[0].moves.length, move));
  shown.at = at === null ? runs[0].after(shown.move) : at;
  shown.moving = isMoving;
  history.replaceState(0, "", `#${shown.move}`);
  show();
}
function step(by) {
  const run = runs[0];
  if (!shown.single) return go(shown.move + by, null, by > 0);
  const at = shown.at + by;
  if (at <= run.before(shown.move) && by < 0 || shown.move === 0 && by < 0) return go(shown.move - 1);
  if (at > run.after(shown.move)) {
    const next = Math.min(shown.move + 1, run.moves.length);
    return go(next, Math.min(run.before(next) + 1, run.after(next)), true);
  }
  go(shown.move, at, by > 0);
}
function toChange(by) {
  let move = shown.move + by;
  while (move > 0 && move < runs[0].moves.length && runs[0].dull[move]) move += by;
  go(move, null, by > 0);
}
function toDifference() {
  for (let move = 0; move <= runs[0].moves.length; move++) {
    [shown.move, shown.at] = [move, runs[0].after(move)];
    if (runs[0].routers.some((_, n) => differ(n))) return go(move);
  }
  show();
}
let timer = null;
function play() {
  if (timer) clearInterval(timer);
  timer = timer ? null : setInterval(() => shown.move < runs[0].moves.length ? shown.single ? step(1) : toChange(1)
      : play(), 1400);
  byId("play").textContent = timer ? "⏸" : "▶";
}
const textsOfMoves = [];
function textOfMove(move) { return textsOfMoves[move] ??= textOfMoveFound(move) }
function textOfMoveFound(move) {
  const run = runs[0], [from, to] = [run.before(move), run.after(move)], packets = run.packetsOf(from, to);
  return [run.title(move), ...run.steps.slice(from, to).map(step => run.texts[step[9]] || ""),
      ...packets.map(packet => run.texts[packet[4]])].join("\n").toLowerCase();
}
function search(isNext) {
  const wanted = byId("search").value.trim().toLowerCase(), hits = [];
  rowsOfMoves.forEach((row, move) => {
    const isHit = wanted !== "" && textOfMove(move).includes(wanted);
    row.classList.toggle("hit", isHit);
    if (isHit) hits.push(move);
  });
  byId("search").title = wanted ? `${hits.length} moves; Enter goes to the next` : "";
  if (isNext && hits.length) go(hits.find(move => move > shown.move) ?? hits[0]);
}
function filter() {
  setFilter(byId("filter").value);
  byId("filter").classList.toggle("on", shown.filter !== "");
  shown.alone = null;
  rowsOfMoves.forEach((row, move) => row.classList.toggle("other", shown.filter !== "" && move > 0 &&
      !textOfMove(move).includes(shown.filter)));
  show();
}
function nextTree() {
  const names = [...byId("legend").querySelectorAll("[data-tree]")].map(each => each.dataset.tree);
  const at = names.indexOf(shown.alone);
  shown.alone = at + 1 < names.length ? names[at + 1] : null;
  show();
}
function toggleSingle() {
  shown.single = !shown.single;
  go(shown.move, shown.single && shown.move ? Math.min(runs[0].before(shown.move) + 1, runs[0].after(shown.move))
      : null);
}
const KEYS = {
  ArrowRight: ["→", "the next move", () => step(1)], ArrowLeft: ["←", "the move before", () => step(-1)],
  n: ["n", "the next move that changes something", () => toChange(1)], p: ["p", "the one before", () => toChange(-1)],
  " ": ["space", "play, stop", play], d: ["d", "single deliveries of a settle", toggleSingle],
  t: ["t", "one tree after the other alone, then all", nextTree],
      x: ["x", "the first difference of two runs", () => runs.length > 1 && toDifference()],
  r: ["r", "the next router", () => { shown.router = (shown.router + 1) % current().routers.length; show() }],
  Home: ["Home", "before the first move", () => go(0)], End: ["End", "the last move", () => go(runs[0].moves.length)],
  f: ["f", "a host or a group alone", () => byId("filter").focus()],
  "+": ["+", "a larger map", () => zoomBy(.8)], "-": ["−", "a smaller one", () => zoomBy(1.25)],
  0: ["0", "the whole network", () => zoomBy(0)],
  "/": ["/", "search; Enter goes to the next hit", () => byId("search").focus()],
      "?": ["?", "these keys", () => { byId("keys").hidden = !byId("keys").hidden }],
};
function listen() {
  const clicks = { first: () => go(0), back: () => step(-1), forward: () => step(1), play, change: () => toChange(1),
      single: toggleSingle,
    differs: toDifference, help: KEYS["?"][2], in: KEYS["+"][2], out: KEYS["-"][2], whole: KEYS[0][2] };
  for (const id in clicks) byId(id).onclick = clicks[id];
  byId("slider").max = runs[0].moves.length;
  byId("slider").oninput = event => go(+event.target.value);
  byId("idle").onchange = event => byId("moves").classList.toggle("few", !event.target.checked);
  byId("moves").classList.add("few");
  byId("hellos").checked = shown.hellos = !runs[0].byTime && runs[0].routers.length < MANY_ROUTERS;
  byId("hellos").onchange = event => { shown.hellos = event.target.checked; show() };
  byId("filter").oninput = filter;
  byId("filter").onkeydown = event => { event.stopPropagation(); if (event.key === "Escape") byId("filter").blur() };
  const names = runs.flatMap(run => [...run.streams.map(([group]) => group), ...run.hosts.map(host => host.name)]);
  byId("names").innerHTML = [...new Set(names)].map(name => `<option value="${escaped(name)}">`).join("");
  listenPanes();
  byId("search").oninput = () => search(false);
  byId("search").onkeydown = event => { event.stopPropagation(); if (event.key === "Enter") search(true);
      if (event.key === "Escape") byId("search").blur() };
  document.onkeydown = event => {
    if (event.ctrlKey || event.metaKey || event.altKey || !KEYS[event.key]) return;
    event.preventDefault();
    KEYS[event.key][2]();
  };
  byId("keys").innerHTML = titled("Keys",
      rowsIn(Object.values(KEYS).map(([key, what]) => `<tr>${bold(key)}${cell(what)}`)));
  byId("differs").hidden = runs.length < 2;
}
makeMaps();
begin();
listMoves();
listen();
const asked = new URLSearchParams(location.hash.slice(1).replace(/^\d+/, ""));
if (asked.get("router")) shown.router = Math.max(0,
    runs[0].routers.findIndex(router => router.name === asked.get("router")));
if (asked.has("single")) shown.single = true;
go(location.hash.length > 1 ? parseInt(location.hash.slice(1), 10) || 0 : DATA.start);
