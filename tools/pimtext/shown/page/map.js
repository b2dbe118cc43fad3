// The map of a run: links, routers, hosts, trees, and packets on their way.

function node(name, set, text) {
  const made = document.createElementNS(NAMESPACE, name);
  for (const key in set) made.setAttribute(key, set[key]);
  if (text != null) made.textContent = text;
  return made;
}
const placeOf = (kind, name) => PLACES[`${kind} ${name}`];
function along(from, to, share) { return [from[0] + (to[0] - from[0]) * share, from[1] + (to[1] - from[1]) * share] }
function aside(from, to, shift) {
  const length = Math.hypot(to[0] - from[0], to[1] - from[1]) || 1;
  const [x, y] = [-(to[1] - from[1]) / length * shift, (to[0] - from[0]) / length * shift];
  return [[from[0] + x, from[1] + y], [to[0] + x, to[1] + y]];
}

// ---- what part of the map is seen

// Letters have so many pixels at least, on whatever scale.
const LEAST = 11, NEAREST = 12;
// A network of which a pixel would be more units than this is shown in part at first, so that names stand apart.
const MOST_AT_FIRST = 2.1;
// The part of the map that all pictures show, and how many of its units a pixel is. Where these are many, a box holds a
// name alone.
const view = { box: [...DATA.box], unit: 1, isCompact: false };
function measure(svg) {
  const { width, height } = svg.getBoundingClientRect(), [, , wide, high] = view.box;
  if (!width || !height) return;
  view.unit = Math.max(wide / width, high / height);
  view.isCompact = view.unit > (RUNS[0].routers.length < MANY_ROUTERS ? 1.5 : 1.1);
}
// A larger or smaller part, about a point that stays where it is.
function zoom(factor, [x, y] = [view.box[0] + view.box[2] / 2, view.box[1] + view.box[3] / 2]) {
  const [left, top, wide, high] = view.box, share = Math.min(1, Math.max(1 / NEAREST, wide / DATA.box[2] * factor)) *
      DATA.box[2] / wide;
  view.box = [x - (x - left) * share, y - (y - top) * share, wide * share, high * share];
  if (view.box[2] >= DATA.box[2]) view.box = [...DATA.box];
}
function pan(x, y) { view.box = [view.box[0] + x, view.box[1] + y, view.box[2], view.box[3]] }

// ---- nodes

// Half the size of the box of a node of each kind.
const HALF = { r: [47, 21], l: [42, 16], h: [46, 13] };
const HOSTS = new Map(DATA.hosts.map(host => [host.address, host.name]));
const labelOf = (kind, name) => kind === "h" ? "✓ " + cut(HOSTS.get(name) || name, 13) : cut(name, kind === "r" ? 12 : 13);
function halfOf(kind, name) {
  if (!view.isCompact) return HALF[kind];
  return [(labelOf(kind, name).length * 3.2 + 5) * view.unit, 9.5 * view.unit];
}
// A point on a line from the middle of a box, where it leaves the box.
function edgeOf(kind, name, from, to, gap = 2) {
  const [wide, high] = halfOf(kind, name), [x, y] = [to[0] - from[0], to[1] - from[1]], length = Math.hypot(x, y) || 1;
  const reach = Math.min(wide / Math.max(Math.abs(x) / length, 1e-6), high / Math.max(Math.abs(y) / length, 1e-6)) +
      gap;
  return along(from, to, Math.min(.48, reach / length));
}
// Where the packets of an interface go: the nodes at its other end.
function farEnds(run, router, iface) {
  const [link] = run.routers[router].ifaces[iface], kind = DATA.kinds[link];
  if (kind === "lan") return [["l", link]];
  if (kind === "pair") return run.ports.get(link).filter(([other]) => other !== router).map(([other]) =>
      ["r", run.routers[other].name]);
  if (kind === "stub") return DATA.hosts.filter(host => host.link === link).map(host => ["h", host.address]);
  return [];
}
function wayOf(run, router, [kind, name]) {
  const from = placeOf("r", run.routers[router].name), to = placeOf(kind, name);
  return [edgeOf("r", run.routers[router].name, from, to), edgeOf(kind, name, to, from)];
}

class Picture {
  constructor(run, figure) {
    this.run = run;
    this.svg = figure.appendChild(node("svg", {}));
    this.isSmall = run.routers.length < MANY_ROUTERS;
    this.svg.onwheel = event => {
      event.preventDefault();
      zoom(event.deltaY < 0 ? .8 : 1.25, this.pointOf(event));
      drawMaps();
    };
    this.svg.onpointerdown = event => this.drag(event);
  }
  // A point of the map, by where the mouse is.
  pointOf(event) {
    const point = new DOMPoint(event.clientX, event.clientY).matrixTransform(this.svg.getScreenCTM().inverse());
    return [point.x, point.y];
  }
  drag(event) {
    const from = this.pointOf(event);
    this.svg.onpointermove = moved => {
      const [x, y] = this.pointOf(moved);
      pan(from[0] - x, from[1] - y);
      for (const map of maps) map.look();
    };
    this.svg.onpointerup = this.svg.onpointerleave = () => { this.svg.onpointermove = null };
  }
  look() {
    this.svg.setAttribute("viewBox", view.box.join(" "));
    this.svg.style.setProperty("--font", `${Math.max(12, LEAST * view.unit)}px`);
    this.svg.style.setProperty("--small", `${Math.max(LEAST, LEAST * view.unit)}px`);
  }
  draw() {
    const at = position(this.run), start = startOf(this.run);
    this.at = at;
    this.look();
    this.shapes = this.run.routers.map((_, n) => this.run.shape(n, at));
    this.sortTrees();
    this.svg.replaceChildren(this.heads());
    this.run.routers.forEach((_, n) => this.drawInterfaces(n));
    this.run.routers.forEach((_, n) => this.drawTrees(n));
    this.run.routers.forEach((_, n) => this.drawRegisters(n));
    this.labels.forEach(label => this.svg.append(label));
    this.run.links.forEach(link => this.drawLink(link));
    this.run.routers.forEach((_, n) => this.drawRouter(n, start));
    DATA.hosts.forEach(host => this.drawHost(host));
    this.drawPackets(start, at);
  }
  // The heads of arrows, one a colour.
  heads() {
    this.labels = [];
    const made = node("defs", {}), size = this.isSmall ? 3.6 : 3.2;
    for (const colour of new Set([...Object.values(COLOURS), "#c0392b"])) {
      const head = made.appendChild(node("marker",
          { id: `head${colour.slice(1)}`, viewBox: "0 0 8 8", refX: 6.5, refY: 4,
        markerWidth: size, markerHeight: size, orient: "auto" }));
      head.append(node("path", { d: "M0 0L8 4L0 8z", fill: colour }));
    }
    return made;
  }
  drawInterfaces(router) {
    const { name, ifaces } = this.run.routers[router], up = new Set(this.shapes[router].up);
    ifaces.forEach(([, address], iface) => farEnds(this.run, router, iface).forEach((end, n) => {
      const [from, to] = wayOf(this.run, router, end), middle = end[0] === "r" ? along(from, to, .5) : to;
      const look = up.has(iface) ? { stroke: "#b9c3cd" } : { stroke: "#d9837a", "stroke-dasharray": "4 4" };
      this.svg.append(node("line", { x1: from[0], y1: from[1], x2: middle[0], y2: middle[1], "stroke-width": 1.4,
          ...look }));
      if (n || view.isCompact) return;
      const isDr = this.shapes[router].dr.includes(iface), [x, y, anchor] = this.besideLine(router, from, to);
      const text = (this.isSmall ? `${iface}: ${address}` : `${iface}`) +
          (up.has(iface) ? isDr && end[0] !== "r" ? " DR" : "" : " down");
      const label = node("text", { x, y, "text-anchor": anchor, class: "small halo" }, text);
      label.append(node("title", {}, `${name}, interface ${iface}: ${address}${isDr ? ", the DR here" : ""}`));
      this.labels.push(label);
    }));
  }
  // Where the label of an interface stands, and from which of its ends on: beside the line, clear of the router's box.
  besideLine(router, from, to) {
    const [, middle] = placeOf("r", this.run.routers[router].name), isRight = to[0] >= from[0];
    if (Math.abs(from[1] - middle) > HALF.r[1]) { // the line leaves by the top or the bottom
      const [down, lean] = [from[1] < middle ? -5 : 12, (to[0] - from[0]) / Math.max(1, Math.abs(to[1] - from[1]))];
      return [from[0] + Math.abs(down) * lean + (isRight ? 8 : -8), from[1] + down, isRight ? "start" : "end"];
    }
    return [from[0] + (isRight ? 9 : -9), from[1] + (to[1] < from[1] - 2 ? 15 : -8), isRight ? "start" : "end"];
  }
  isShown(tree) { return shown.kinds[tree.startsWith("(*") ? "shared" : "source"] && isWantedTree(tree) &&
      (shown.alone === null || shown.alone === tree) }
  // Whether a router has a tree that is shown, or everything is.
  isOnShown(router) {
    return !shown.filter || this.shapes[router].arrows.some(([tree]) => this.isShown(treeName(this.run.trees[tree])));
  }
  // The trees on each line between a router and a node, by their names, and who sends each tree on a link.
  sortTrees() {
    this.onLines = new Map();
    this.senders = new Map();
    this.shapes.forEach(({ arrows }, router) => arrows.forEach(([tree, incoming, outgoing]) => {
      const name = treeName(this.run.trees[tree]);
      if (!this.isShown(name)) return;
      for (const iface of incoming < 0 ? outgoing : [incoming, ...outgoing]) this.noteLine(router, iface, name);
      for (const iface of outgoing) {
        const key = `${this.run.routers[router].ifaces[iface][0]} ${name}`;
        this.senders.set(key, [...(this.senders.get(key) || []), router]);
      }
    }));
    for (const [key, names] of this.onLines) this.onLines.set(key, [...names].sort());
  }
  noteLine(router, iface, name) {
    for (const end of farEnds(this.run, router, iface)) {
      const keys = [Picture.line("r", this.run.routers[router].name, end)];
      if (end[0] === "r") keys.push(Picture.line("r", end[1], ["r", this.run.routers[router].name]));
      for (const key of keys) this.onLines.set(key, (this.onLines.get(key) || new Set()).add(name));
    }
  }
  static line(kind, name, end) { return [kind, name, ...end].join("|") }
  drawTrees(router) {
    const { arrows } = this.shapes[router];
    this.run.routers[router].ifaces.forEach((_, iface) => farEnds(this.run, router, iface).forEach(end => {
      const lanes = this.onLines.get(Picture.line("r", this.run.routers[router].name, end)) || [],
          pitch = Math.max(2.4, Math.min(7, 30 / lanes.length));
      for (const [number, incoming, outgoing] of arrows) {
        const name = treeName(this.run.trees[number]), lane = lanes.indexOf(name);
        if (lane < 0 || end[0] === "h" && incoming === iface && !this.isSource(end[1], number)) continue;
        const shift = (lane - (lanes.length - 1) / 2) * pitch;
        if (outgoing.includes(iface)) this.drawArrow(router, iface, end, number, shift, false, pitch);
        if (incoming === iface) this.drawArrow(router, iface, end, number, shift, true, pitch);
      }
    }));
  }
  isSource(address, tree) { return this.run.trees[tree][1] === address }
  // Half of the way of a tree between two routers, or all of it to a link or a host.
  drawArrow(router, iface, end, tree, shift, isIncoming, pitch) {
    const [group, source] = this.run.trees[tree], colour = colourOf([group, source]);
    const name = this.run.routers[router].name, isFirst = end[0] !== "r" || name < end[1];
    let [from, to] = aside(...wayOf(this.run, router, end), isFirst ? shift : -shift);
    if (end[0] === "r") to = along(from, to, .5);
    if (isIncoming) [from, to] = [to, from];
    const isSent = !isIncoming || this.isSent(router, iface, tree);
    const look = { x1: from[0], y1: from[1], x2: to[0], y2: to[1], stroke: colour,
        "stroke-width": Math.min(3.2, pitch * .62) };
    if (source === "*") look["stroke-dasharray"] = "7 3.5";
    if (isIncoming || end[0] !== "r") look["marker-end"] = `url(#head${colour.slice(1)})`;
    const line = this.svg.appendChild(node("line", look));
    const verb = isIncoming ? "expects" : "sends", where = `${iface} ${this.run.routers[router].ifaces[iface][0]}`;
    line.append(node("title", {}, `${treeName([group, source])}: ${name} ${verb} it on ${where}`));
    if (!isSent) this.svg.append(node("circle",
        { cx: from[0], cy: from[1], r: 4.2, fill: "#fff", stroke: "#c0392b", "stroke-width": 1.8 }));
  }
  // Whether somebody sends a tree on the link where a router expects it: another router, this or the group's, or the
  // source itself.
  isSent(router, iface, tree) {
    const [link] = this.run.routers[router].ifaces[iface], [group, source] = this.run.trees[tree];
    if (DATA.hosts.some(host => host.address === source && host.link === link)) return true;
    const others = [...(this.senders.get(`${link} (${source}, ${group})`) || []),
        ...(this.senders.get(`${link} (*, ${group})`) || [])];
    return others.some(other => other !== router);
  }
  // Registers go from a source's router to the RP.
  drawRegisters(router) {
    for (const [tree, rp] of this.shapes[router].registers) {
      const owner = this.run.owners.get(this.run.texts[rp]), pair = this.run.trees[tree];
      if (owner == null || !this.isShown(treeName(pair))) continue;
      const from = placeOf("r", this.run.routers[router].name), to = placeOf("r", this.run.routers[owner].name);
      const bend = along(...aside(from, to, Math.hypot(to[0] - from[0], to[1] - from[1]) * .22), .5);
      const [start, end] = [edgeOf("r", this.run.routers[router].name, from, bend),
          edgeOf("r", this.run.routers[owner].name, to, bend, 5)];
      const line = this.svg.appendChild(node("path",
          { d: `M${start} Q${bend} ${end}`, fill: "none", stroke: colourOf(pair), "stroke-width": 2,
        "stroke-dasharray": "2 4", "marker-end": `url(#head${colourOf(pair).slice(1)})` }));
      const [who, rpName] = [router, owner].map(n => this.run.routers[n].name);
      line.append(node("title", {}, `${who} registers ${treeName(pair)} with ${rpName}`));
    }
  }
  drawLink([link, net]) {
    if (DATA.kinds[link] !== "lan") {
      if (DATA.kinds[link] === "pair") this.nameLink(link, net);
      return;
    }
    const place = placeOf("l", link), [x, y] = place, group = this.box("l", link, place, { fill: "#fff", stroke: "#9aa5b0" });
    group.append(node("text", { x, y: this.base(y, -1), "text-anchor": "middle" }, labelOf("l", link)),
        node("title", {}, `${link} ${net}`));
    if (!view.isCompact) group.append(node("text", { x, y: y + 11, "text-anchor": "middle", class: "small" }, net));
  }
  // The box of a node, in a group of its own.
  box(kind, name, [x, y], look) {
    const [wide, high] = halfOf(kind, name), group = this.svg.appendChild(node("g", {}));
    group.append(node("rect", { x: x - wide, y: y - high, width: 2 * wide, height: 2 * high, "stroke-width": 1.5,
        rx: kind === "r" ? 7 : high, ...look }));
    return group;
  }
  // Where the first line of a box stands: in its middle where it is alone.
  base(y, shift) { return view.isCompact ? y + 4 * view.unit : y + shift }
  nameLink(link, net) {
    if (!this.isSmall || view.isCompact) return;
    const ends = this.run.ports.get(link).map(([router]) => placeOf("r", this.run.routers[router].name));
    const [x, y] = along(ends[0], ends[1], .5);
    const label = node("text", { x, y: y - 13, "text-anchor": "middle", class: "small halo" }, link);
    label.append(node("title", {}, net));
    this.svg.append(label);
  }
  drawRouter(router, start) {
    const { name } = this.run.routers[router], place = placeOf("r", name), [x, y] = place, [wide, high] = halfOf("r", name);
    const isChanged = this.run.change(router, start).shape !== this.run.change(router, this.at).shape;
    const isOdd = this.run.steps.slice(start, this.at).some(step => step[0] === router && step[8]);
    const isChosen = this.run === current() && shown.router === router, { up, rp } = this.shapes[router];
    const fill = isChosen ? "#cfe3f8" : up.length ? "#e9eef3" : "#f6dedb";
    const group = this.box("r", name, place, { fill, stroke: isChanged ? "#e08a00" : "#33414f",
        "stroke-width": isChanged ? 3 : 1.5 });
    group.classList.add("pick");
    group.classList.toggle("faded", !this.isOnShown(router));
    group.append(node("text", { x, y: this.base(y, -2), "text-anchor": "middle", "font-weight": 700 }, labelOf("r", name)),
        node("title", {}, `${name}, ${seconds(this.momentOf(router))}`));
    if (!view.isCompact) group.append(node("text", { x, y: y + 14, "text-anchor": "middle", class: "small" },
        seconds(this.momentOf(router))));
    if (rp.length) this.badge(group, x + wide - 9, y - high, "RP", "#33414f",
        `RP of ${rp.map(text => this.run.texts[text]).join(", ")}`);
    if (isOdd) this.badge(group, x - wide + 9, y - high, "!", "#c0392b", "it refused or ignored something in this move");
    group.onclick = () => { shown.router = router; shown.run = runs.indexOf(this.run); show() };
  }
  badge(group, x, y, text, fill, title) {
    const made = group.appendChild(node("g", {})), unit = Math.max(1, view.unit);
    made.append(node("rect", { x: x - 12 * unit, y: y - 8 * unit, width: 24 * unit, height: 16 * unit, rx: 8 * unit, fill }),
      node("text", { x, y: y + 4 * unit, "text-anchor": "middle", class: "tag", "font-weight": 700 }, text),
          node("title", {}, title));
  }
  momentOf(router) { return Run.last(this.run.ticks[router], this.at).moment }
  drawHost(host) {
    const place = placeOf("h", host.address), mine = this.run.hosts.find(other => other.address === host.address);
    const { state, text } = mine ? this.run.stateOf(mine, this.at) : { state: LEFT, text: "" };
    const [x, y] = place, [fill, stroke, mark] = [["#fff", "#9aa5b0", ""], ["#fff", "#9aa5b0", "… "],
        ["#d8f0dd", "#1e7e34", "✓ "],
      ["#fdeccb", "#c77700", "×2 "], ["#fbdcd8", "#c0392b", "✗ "]][state];
    if (DATA.kinds[host.link] === "lan") {
      const link = placeOf("l", host.link), from = edgeOf("h", host.address, place, link),
          to = edgeOf("l", host.link, link, place);
      this.svg.append(node("line", { x1: from[0], y1: from[1], x2: to[0], y2: to[1], stroke: "#b9c3cd" }));
    }
    const group = this.box("h", host.address, place, { fill, stroke });
    group.classList.toggle("faded", !isWantedHost(this.run, host.address));
    group.append(node("text", { x, y: this.base(y, 4), "text-anchor": "middle" }, mark + cut(host.name, 13)),
          node("title", {}, `${host.name} ${host.address}: ${text || "asks for nothing"}`));
    if (state === MISSED || state === TWICE) this.why(x, y + 25, text, state);
  }
  // Why a host got nothing, in a few short lines; in a large network the panel has it.
  why(x, y, text, state) {
    if (!this.isSmall || view.isCompact) return;
    const lines = wrapped(text.replace(/^packet \d+ (didn't come: )?/, ""), 30).slice(0, 4);
    lines.forEach((line, n) => this.svg.append(node("text",
        { x, y: y + n * 12, "text-anchor": "middle", class: "why halo",
      style: state === TWICE ? "fill:#a35f00" : "" }, line)));
  }
  // ---- packets on their way
  drawPackets(start, at) {
    const flights = new Map(), order = [];
    const put = (from, to, kind, tree, when) => {
      const key = [from, to, kind, tree].join("|");
      if (!flights.has(key)) { flights.set(key, { from, to, kind, tree, when, count: 0 }); order.push(key) }
      flights.get(key).count++;
    };
    this.putSenders(put, start, at);
    for (const packet of this.run.packetsOf(start, at)) {
      const [router, where, isUnicast, kind, , , when, tree, iface] = packet,
          from = ["r", this.run.routers[router].name];
      const owner = this.run.owners.get(isUnicast ? this.run.texts[where] : "");
      const ends = isUnicast ? owner == null ? [] : [["r", this.run.routers[owner].name]]
          : farEnds(this.run, router, iface);
      for (const end of ends) put(from, end, this.run.texts[kind], tree, when);
    }
    const times = [...new Set(order.map(key => flights.get(key).when))].sort((a, b) => a - b), load = {};
    for (const key of order) {
      const flight = flights.get(key), way = `${flight.from} ${flight.to}`;
      load[way] = (load[way] || 0) + 1;
      this.fly(flight, load[way] - 1, times.indexOf(flight.when) * Math.min(220, 2400 / times.length));
    }
  }
  // What hosts gave to routers.
  putSenders(put, start, end) {
    const move = this.run.moves[moveOf(this.run) - 1];
    for (const [host, at] of move ? move[4] : []) {
      if (at < start || at >= end) continue;
      const sender = this.run.hosts[host], step = this.run.steps[at], title = this.run.texts[step[9]];
      const to = DATA.kinds[sender.link] === "lan" ? ["l", sender.link] : ["r", this.run.routers[step[0]].name];
      const tree = this.run.trees.findIndex(([group, source]) => source === sender.address &&
          title.includes(`> ${group}: data`));
      put(["h", sender.address], to, /: data/.test(title) ? "data" : "report", tree, at);
    }
  }
  fly({ from, to, kind, tree, count }, lane, delay) {
    if (tree >= 0 && !this.isShown(treeName(this.run.trees[tree]))) return;
    if (!shown.hellos && (kind === "Hello" || kind === "query")) return;
    const colour = tree >= 0 ? colourOf(this.run.trees[tree]) : kind === "data" ? "#333" : "#4a5763";
    const [start, end] = [edgeOf(...from, placeOf(...from), placeOf(...to)),
        edgeOf(...to, placeOf(...to), placeOf(...from))];
    const made = this.svg.appendChild(node("g", {})), text = kind + (count > 1 ? ` ×${count}` : "");
    const unit = Math.max(1, view.unit), wide = (text.length * 6.2 + 12) * unit, isCopy = kind === "data" && tree >= 0;
    const stop = along(start, end, isCopy ? .5 + ((lane % 2 ? 1 : -1) * Math.ceil(lane / 2) * .11) % .4 : .5);
    if (isCopy) made.append(node("circle", { r: 6.5 * unit, fill: colour, stroke: "#fff", "stroke-width": 2 }));
    else made.append(node("rect", { x: -wide / 2, y: -8 * unit, width: wide, height: 16 * unit, rx: 8 * unit, fill: colour,
        stroke: "#fff" }),
      node("text", { y: 4 * unit, "text-anchor": "middle", class: "tag" }, text));
    made.append(node("title", {}, `${text}: ${from[1]} to ${to[1]}`));
    const drop = isCopy ? 0 : lane * 17 * unit;
    made.setAttribute("transform", `translate(${stop[0]},${stop[1] + drop})`);
    if (shown.moving) made.animate([{ transform: `translate(${start[0]}px,${start[1]}px)`, opacity: 0 },
        { opacity: 1, offset: .15 },
      { transform: `translate(${stop[0]}px,${stop[1] + drop}px)` }],
          { duration: 600, delay, easing: "ease-out", fill: "backwards" });
  }
}
const cut = (text, length) => text.length > length ? text.slice(0, length - 1) + "…" : text;
function wrapped(text, length) {
  const lines = [""];
  for (const word of text.split(" ")) {
    if ((lines.at(-1) + " " + word).length > length && lines.at(-1)) lines.push(word);
    else lines[lines.length - 1] += (lines.at(-1) ? " " : "") + word;
  }
  return lines;
}
