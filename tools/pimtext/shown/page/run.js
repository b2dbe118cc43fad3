"use strict";
// A run, or two beside one another, move by move. The data are as pimtext.shown.recorded has them.
const DATA = JSON.parse(document.getElementById("data").textContent);
const RUNS = DATA.runs, PLACES = DATA.places, COLOURS = DATA.colours;
const byId = id => document.getElementById(id);
const NAMESPACE = "http://www.w3.org/2000/svg";
const [LEFT, WAITS, CAME, TWICE, MISSED] = [0, 1, 2, 3, 4];
const MANY_ROUTERS = 9;
// What is shown: a move of the first run, the answers up to which it is shown, a router and a run.
const shown = { move: 0, at: 0, router: 0, run: 0, single: false, kinds: { source: true, shared: true },
  hellos: true, alone: null, moving: false, filter: "" };
const escaped = text => String(text).replace(/[&<>"]/g,
    sign => ({ "&": "&amp;", "<": "&lt;", ">": "&gt;", '"': "&quot;" }[sign]));
const seconds = ms => `${(ms / 1000).toFixed(ms % 1000 ? 3 : 0)} s`;

// ---- a run

class Run {
  constructor(data) {
    Object.assign(this, data);
    this.changes = this.routers.map(() => [{ at: 0, shape: 0, ends: [] }]);
    this.patches = this.routers.map(() => []);
    this.ticks = this.routers.map(() => [{ at: 0, moment: 0 }]);
    this.packets.forEach((packet, n) => { packet.number = n + 1 });
    this.steps.forEach(([router, shape, moment, told], at) => {
      if (moment !== this.ticks[router].at(-1).moment) this.ticks[router].push({ at: at + 1, moment });
      if (shape >= 0) this.changes[router].push({ at: at + 1, shape, ends: told });
      else if (told.length) this.patches[router].push({ at: at + 1, told });
    });
    this.owners = new Map(this.routers.flatMap((router, n) =>
      [...router.ifaces.map(([, address]) => address), ...router.addresses].map(address => [address, n])));
    this.dull = [false, ...this.moves.map((_, n) => this.isDull(n))];
    this.odd = [false, ...this.moves.map(move => this.range(move).some(step => step[8]))];
    this.ports = new Map(this.links.map(([link]) => [link, []]));
    this.routers.forEach((router, n) => router.ifaces.forEach(([link], iface) =>
        this.ports.get(link).push([n, iface])));
  }
  range([, first, count]) { return this.steps.slice(first, first + count) }
  isDull(n) { return this.range(this.moves[n]).every(step => step[1] < 0 && !step[7] && !step[8]) }
  // How many answers there are up to a move.
  after(move) { return move ? this.moves[move - 1][1] + this.moves[move - 1][2] : 0 }
  before(move) { return move ? this.moves[move - 1][1] : 0 }
  // The last item of a list that was there at a number of answers.
  static last(list, at) {
    let low = 0, high = list.length;
    while (high - low > 1) { const middle = (low + high) >> 1; if (list[middle].at <= at) low = middle;
        else high = middle }
    return list[low];
  }
  change(router, at) { return Run.last(this.changes[router], at) }
  shape(router, at) { return this.shapes[router][this.change(router, at).shape] }
  ends(router, at) {
    const { at: since, ends } = this.change(router, at), now = [...ends];
    for (const patch of this.patches[router]) {
      if (patch.at <= since) continue;
      if (patch.at > at) break;
      for (let n = 0; n < patch.told.length; n += 2) now[patch.told[n]] = patch.told[n + 1];
    }
    return now;
  }
  moment(move) { return move ? this.moves[move - 1][3] : 0 }
  title(move) { return move ? this.texts[this.moves[move - 1][0]] : "before the first move" }
  // The move of this run at which the other one is: of the same number where both have as many, else of the same time.
  moveBeside(other, move) {
    if (other === this || !this.byTime && this.moves.length === other.moves.length) return Math.min(move,
        this.moves.length);
    let found = 0;
    const moment = other.moment(move);
    while (found < this.moves.length && this.moves[found][3] <= moment) found++;
    return found;
  }
  packetsOf(from, to) { return this.steps.slice(from,
      to).flatMap(step => this.packets.slice(step[6], step[6] + step[7])) }
  // What each stream of a host is at a number of answers: its last event, how many packets came and how many were due.
  streamsOf(host, at) {
    const found = new Map();
    for (const [when, stream, state, text] of host.events) {
      if (when > at) break;
      const now = found.get(stream) || { came: 0, twice: 0, missed: 0 };
      Object.assign(now, { state, text: this.texts[text], when });
      now.came += state === CAME; now.twice += state === TWICE; now.missed += state === MISSED;
      found.set(stream, now);
    }
    return [...found].filter(([, now]) => now.state !== LEFT).map(([stream, now]) => ({ stream, ...now }));
  }
  stateOf(host, at) {
    const streams = this.streamsOf(host, at), heard = streams.filter(each => each.state > WAITS);
    const state = heard.reduce((worst, each) => Math.max(worst, each.state), streams.length ? WAITS : LEFT);
    return { state, text: (heard.find(each => each.state === state) || streams[0] || { text: "" }).text };
  }
  // How a delivery or a move of its own is called.
  answer(at) {
    if (at < 0 || at >= this.steps.length) return "";
    const [router, , , , brought, iface, , , , title] = this.steps[at], name = this.routers[router].name;
    if (!brought) return this.texts[title];
    const packet = this.packets[brought - 1], where = iface < 0 ? "as a unicast"
        : `on ${iface} ${this.routers[router].ifaces[iface][0]}`;
    return `${name} takes ${where}: packet ${brought} of ${this.routers[packet[0]].name}, ${this.texts[packet[3]]}`;
  }
}
const runs = RUNS.map(data => new Run(data));
const treeName = ([group, source]) => `(${source}, ${group})`;
const colourOf = tree => COLOURS[treeName(tree)] || "#555";
const current = () => runs[shown.run];
// The number of answers up to which a run is shown.
function position(run) {
  if (run === runs[0]) return shown.at;
  return run.after(run.moveBeside(runs[0], shown.move));
}
const moveOf = run => run.moveBeside(runs[0], shown.move);
const startOf = run => run === runs[0] && shown.single ? Math.max(shown.at - 1, 0) : run.before(moveOf(run));

// ---- a host or a group alone

const isNamed = (address, names) => [address, names.get(address) || ""].some(text => text.toLowerCase().includes(shown.filter));
// The groups that a filter means in a run, and its hosts: those that it names, and what these want or send.
function wantedOf(run) {
  const names = new Map(run.hosts.map(host => [host.address, host.name])), groups = new Set(), hosts = new Set();
  const all = [...run.trees, ...run.streams];
  for (const [group, source] of all) if (group.includes(shown.filter) || isNamed(source, names)) groups.add(group);
  const groupsOf = host => host.events.map(event => run.streams[event[1]][0]);
  for (const host of run.hosts) if (groupsOf(host).some(group => groups.has(group))) hosts.add(host.address);
  for (const host of run.hosts) if (isNamed(host.address, names)) {
    hosts.add(host.address);
    groupsOf(host).forEach(group => groups.add(group));
  }
  for (const [group, source] of all) if (groups.has(group) && source !== "*") hosts.add(source);
  return { groups, hosts };
}
const wanted = new Map();
function setFilter(text) {
  shown.filter = text.trim().toLowerCase();
  wanted.clear();
  if (shown.filter) for (const run of runs) wanted.set(run, wantedOf(run));
}
const isWantedTree = name => !shown.filter || [...wanted.values()].some(({ groups }) =>
    groups.has(name.slice(1, -1).split(", ")[1]));
const isWantedPacket = (run, [, , , , words, , , tree]) => !shown.filter || run.texts[words].includes(shown.filter) ||
    tree >= 0 && isWantedTree(treeName(run.trees[tree]));
const isWantedHost = (run, address) => !shown.filter || wanted.get(run).hosts.has(address);
