// The panels beside the map, and the legend above it.

const cell = (text, look = "") => `<td class="${look}">${escaped(text)}`;
const bold = text => `<td><b>${escaped(text)}</b>`;
const rowsIn = rows => rows.length ? `<table>${rows.join("")}</table>` : "";
const titled = (title, body, empty) => `<h3>${title}</h3>${body || `<span class=soft>${empty}</span>`}`;
const folded = (head, body, isOpen = false, id = "") =>
  `<details ${isOpen ? "open" : ""} id="${id}"><summary>${head}</summary>${body}</details>`;
const STATES = ["soft", "soft", "good", "twice", "bad"];
const MARKS = ["", "…", "✓", "×2", "✗"];
const MOST_PACKETS = 400, MOST_ODD = 40, MOST_GOOD = 8, MOST_SYMPTOMS = 4;

// ---- what changed

function* rowsChanged(run, old, fresh) {
  const had = new Set(old.rows), has = new Set(fresh.rows);
  for (const row of fresh.rows) if (!had.has(row)) yield ["+", run.texts[row]];
  for (const row of old.rows) if (!has.has(row)) yield ["−", run.texts[row]];
}
// Interfaces that are in a list of one shape alone: those that are up, or on which the router is the DR.
function* ifacesChanged(router, old, fresh, name, words) {
  const told = iface => words(`${iface} ${router.ifaces[iface][0]}`);
  for (const iface of fresh[name]) if (!old[name].includes(iface)) yield ["+", told(iface)];
  for (const iface of old[name]) if (!fresh[name].includes(iface)) yield ["−", told(iface)];
}
function changesPanel(run, start, at) {
  const rows = run.routers.flatMap((router, n) => {
    const [old, fresh] = [run.shape(n, start), run.shape(n, at)];
    if (old === fresh) return [];
    const found = [...rowsChanged(run, old, fresh),
        ...ifacesChanged(router, old, fresh, "up", where => `interface ${where} is up`),
      ...ifacesChanged(router, old, fresh, "dr", where => `DR on ${where}`)];
    return found.map(([sign, text]) => {
      const told = sign === "+" ? escaped(text) : `<s>${escaped(text)}</s>`;
      return `<tr>${bold(router.name)}<td class=${sign === "+" ? "plus" : "minus"}>${sign} ${told}`;
    });
  });
  return titled("What changed", rowsIn(rows), "nothing but when timers end");
}

// ---- packets

function packetRow(run, packet) {
  const [router, where, isUnicast, kind, words, bytes] = packet;
  const text = folded(escaped(run.texts[words]), `<div class=bytes>${run.texts[bytes]}</div>`);
  return `<tr>${cell(packet.number, "soft")}${cell(run.routers[router].name)}` +
    `${cell(isUnicast ? "unicast" : run.links[where][0], "soft")}${cell(run.texts[kind])}<td>${text}`;
}
function packetsPanel(run, start, at) {
  const packets = run.packetsOf(start, at).filter(packet => isWantedPacket(run, packet));
  const more = packets.length - MOST_PACKETS;
  const odd = run.steps.slice(start, at).map((step, n) => [step, start + n]).filter(([step]) => step[8]);
  const told = odd.slice(0, MOST_ODD).map(([step, n]) => {
    const name = run.routers[step[0]].name, what = run.answer(n).replace(/^\S+ /, "");
    return `<div class=bad>${escaped(`${name} ${what} answers: ${run.texts[step[8] - 1]}`)}</div>`;
  });
  const isUsual = packet => ["Hello", "query"].includes(run.texts[packet[3]]), usual = packets.filter(isUsual);
  const rows = each => rowsIn(each.slice(0, MOST_PACKETS).map(packet => packetRow(run, packet)));
  const rest = more > 0 ? `<div class=soft>and ${more} more</div>` : "";
  const hellos = usual.length ? folded(`<span class=soft>${usual.length} Hellos and queries</span>`, rows(usual), shown.usual,
      "usual") : "";
  byId("packets").innerHTML = titled(`Sent by this ${shown.single ? "delivery" : "move"}`,
      told.join("") + rows(packets.filter(packet => !isUsual(packet))) + hellos + rest, "nothing");
  if (byId("usual")) byId("usual").ontoggle = event => { shown.usual = event.target.open };
}

// ---- hosts

// A wish for all sources of a group says nothing more once packets of one of them were due.
function isOnlyWish(run, each, all) {
  const [group, source] = run.streams[each.stream];
  const isOfGroup = other => run.streams[other.stream][0] === group && other.state > WAITS;
  return source === "*" && all.some(other => other !== each && isOfGroup(other));
}
function streamRow(run, host, each) {
  const total = each.came + each.missed, again = each.twice ? `, ${each.twice} again` : "";
  const name = treeName(run.streams[each.stream]), look = STATES[each.state];
  const stream = `<td class=stream style="color:${COLOURS[name]}">${escaped(name)}`;
  return `<tr>${cell(MARKS[each.state], look)}${bold(host.name)}${stream}` +
    `${cell(total ? `${each.came}/${total}${again}` : "", "soft")}` +
        `<tr><td colspan=4 class="why ${look}">${escaped(each.text)}`;
}
function hostsPanel(run, at) {
  const streams = run.hosts.filter(host => isWantedHost(run, host.address)).flatMap(host => {
    const all = run.streamsOf(host, at);
    return all.filter(each => !isOnlyWish(run, each, all) && isWantedTree(treeName(run.streams[each.stream])))
        .map(each => [each.state, streamRow(run, host, each)]);
  });
  streams.sort((one, other) => other[0] - one[0]);
  const rows = wanted => rowsIn(streams.filter(([state]) => wanted(state)).map(([, row]) => row));
  const good = streams.filter(([state]) => state === CAME).length;
  const body = good <= MOST_GOOD ? rows(() => true)
    : rows(state => state !== CAME) + folded(`<span class=good>✓ ${good} streams come</span>`,
        rows(state => state === CAME), shown.goods, "goods");
  return titled("What came to the hosts", body, "no host has asked for anything");
}

// ---- what went wrong

function noteRow([move, text, symptoms]) {
  const lines = symptoms.map(each => `<div class=symptom>${escaped(each)}</div>`), more = lines.slice(MOST_SYMPTOMS);
  return `<div class="jump${move > shown.move ? " gone" : ""}" data-move="${move}"><b>${escaped(text)}</b>` +
    `${lines.slice(0, MOST_SYMPTOMS).join("")}</div>` +
        (more.length ? folded(`and ${more.length} more`, more.join("")) : "");
}
const notesPanel = run => run.notes.length ? titled("What went wrong in this run", run.notes.map(noteRow).join(""))
    : "";

// ---- a router

// A text in which ends of timers stand as marks, with the ends in their place.
const withEnds = (text, ends) => text.replace(/1\d{9}\.000 s/g, mark => seconds(ends[parseInt(mark, 10) - 1e9] || 0));
function viewTable(run, [title, heads, rows], old, ends) {
  const before = new Set((old.view.find(([other]) => other === title) || ["", [], []])[2].map(String));
  const own = heads.indexOf("Outgoing"), isOwn = place => place === own, isNew = row => before.has(String(row)) ? "" : "new";
  const made = rows.map(row => {
    const texts = row.map(number => withEnds(run.texts[number], ends));
    const cells = texts.filter((_, place) => !isOwn(place)).map(text => cell(text, text.length > 24 ? "long" : ""));
    const under = own < 0 ? "" : `<tr class="${isNew(row)}"><td class=own colspan=${heads.length}>to ${escaped(texts[own])}`;
    return `<tr class="${isNew(row)}">${cells.join("")}${under}`;
  });
  const shownHeads = heads.filter((_, place) => !isOwn(place)).map(head => `<th>${escaped(head)}`);
  return `<h4>${title}</h4><table><tr>${shownHeads.join("")}${made.join("")}</table>`;
}
function routerPanel(run, start, at) {
  const n = Math.min(shown.router, run.routers.length - 1), ends = run.ends(n, at), old = run.shape(n, start);
  const tables = run.shape(n, at).view.map(table => viewTable(run, table, old, ends)).join("");
  return titled(`Router ${escaped(run.routers[n].name)}`, tables && `<div class=view>${tables}</div>`,
      "it knows nothing yet");
}

// ---- two runs

// Whether a router of the first run has other trees, or other interfaces that are up, than its like in the second.
function differ(router) {
  const [one, two] = runs, other = two.routers.findIndex(each => each.name === one.routers[router].name);
  const trees = (run, n) => {
    const { arrows, up } = run.shape(n, position(run));
    return JSON.stringify([arrows.map(([tree, ...rest]) => [treeName(run.trees[tree]), ...rest]).sort(), up]);
  };
  return other < 0 || trees(one, router) !== trees(two, other);
}
// What came so far of each stream to each host of a run, and what was missed, by the host's name and the stream's.
function numbersOf(run) {
  const all = run.hosts.flatMap(host => run.streamsOf(host, position(run)).map(each => [host, each]));
  const heard = all.filter(([, each]) => each.came + each.missed);
  return new Map(heard.map(([host, each]) => [`${host.name} ${treeName(run.streams[each.stream])}`, each]));
}
function numbersWords(each) {
  if (!each) return "nothing was sent";
  const more = [each.missed ? `${each.missed} missed` : "", each.twice ? `${each.twice} again` : ""].filter(Boolean);
  return [`${each.came} came`, ...more].join(", ");
}
function hostsThatDiffer([one, two]) {
  const [here, there] = [numbersOf(one), numbersOf(two)];
  return [...new Set([...here.keys(), ...there.keys()])].flatMap(name => {
    const both = [here.get(name), there.get(name)], texts = both.map(numbersWords);
    const told = both.map((each, n) => cell(texts[n], each ? STATES[each.state] : "soft")).join("");
    return texts[0] === texts[1] ? [] : [`<tr>${bold(name)}${told}`];
  });
}
function differencesPanel() {
  if (runs.length < 2) return "";
  const hosts = hostsThatDiffer(runs), heads = `<tr><th><th>${escaped(runs[0].name)}<th>${escaped(runs[1].name)}`;
  const routers = runs[0].routers.filter((_, n) => differ(n)).map(router => escaped(router.name));
  const told = hosts.length ? rowsIn([heads, ...hosts]) : "<div class=soft>no host gets anything else</div>";
  return titled("Where the runs differ", told +
      `<div class=soft>${routers.length ? `trees differ at ${routers.join(", ")}` : "all trees are alike"}</div>`);
}

// ---- the legend

const piece = (colour, look) => `<svg width=26 height=8><line x1=0 y1=4 x2=26 y2=4 stroke="${colour}" ${look} /></svg>`;
const GREY = "#66737f", SOLID = "stroke-width=3", DASHED = 'stroke-width=3 stroke-dasharray="7 3.5"';
const SIGNS = [
  ["source", piece(GREY, SOLID), "a source's tree"], ["shared", piece(GREY, DASHED), "the RP's tree (*,G)"],
  ["", piece(GREY, 'stroke-width=2 stroke-dasharray="2 4"'), "Registers"],
  ["", '<svg width=12 height=12><circle cx=6 cy=6 r=4 fill="#fff" stroke="#c0392b" stroke-width=1.8 /></svg>',
      "expected, and nobody sends"],
  ["", `<svg width=14 height=14><circle cx=7 cy=7 r=5.5 fill="${GREY}" /></svg>`, "a packet of data"],
];
function treesShown() {
  const names = runs.flatMap(run => run.routers.flatMap((_, n) =>
      run.shape(n, position(run)).arrows.map(([tree]) => treeName(run.trees[tree]))));
  return [...new Set(names)].filter(isWantedTree).sort();
}
function legend() {
  const trees = treesShown().map(name => {
    const line = piece(COLOURS[name], name.startsWith("(*") ? DASHED : SOLID), isOff = shown.alone &&
        shown.alone !== name;
    return `<span data-tree="${escaped(name)}" class="${isOff ? "off" : ""}" title="click: this tree alone">${line}` +
      `<b style="color:${COLOURS[name]}">${escaped(name)}</b></span>`;
  });
  const signs = SIGNS.map(([kind, sign, words]) => {
    const pick = kind && `data-kind=${kind} title="click: without these"`, isOff = kind && !shown.kinds[kind];
    return `<span class="plain ${isOff ? "off" : ""}" ${pick}>${sign} ${words}</span>`;
  });
  byId("legend").innerHTML = (trees.join("") || "<span class=plain>no tree yet</span>") + signs.join("");
  for (const each of byId("legend").querySelectorAll("[data-kind]")) each.onclick = () => {
    shown.kinds[each.dataset.kind] = !shown.kinds[each.dataset.kind];
    show();
  };
  for (const each of byId("legend").querySelectorAll("[data-tree]")) each.onclick = () => {
    shown.alone = shown.alone === each.dataset.tree ? null : each.dataset.tree;
    show();
  };
}
