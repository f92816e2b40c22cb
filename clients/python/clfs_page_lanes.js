// The ring of containers and the lanes of records.

// The ring: all containers in turn, those that are listed first, clockwise from the top.

const RING = { x: 160, y: 150, outer: 138, inner: 92 };
const turnOf = (at) => (at / (log.containers * sectors)) * 2 * Math.PI;
const onRing = (turn, radius) => `${(RING.x + radius * Math.sin(turn)).toFixed(2)} ${(RING.y - radius * Math.cos(turn)).toFixed(2)}`;

function arc(from, to, inner, outer, color) {
  const far = to - from > Math.PI ? 1 : 0;
  const ending = Math.min(to, from + 2 * Math.PI - 0.001);
  const path = `M${onRing(from, outer)}A${outer} ${outer} 0 ${far} 1 ${onRing(ending, outer)}L${onRing(ending, inner)}A${inner} ${inner} 0 ${far} 0 ${onRing(from, inner)}Z`;
  return drawing("path", { d: path, fill: `var(${color})` });
}

// Blocks that lie in one small part of the ring are one shape.
function ringParts() {
  const parts = new Map();
  const size = Math.max(1, (log.containers * sectors) / 720);
  for (let block = 0; block < blockReach.length; block++) {
    const key = Math.floor(blockReach[block] / size);
    const part = parts.get(key) || { from: blockReach[block], to: 0, used: 0, live: 0, blocks: 0 };
    part.to = blockReach[block] + log.blocks.sectors[block];
    part.used += log.blocks.used[block];
    part.live |= isLiveBlock[block];
    part.blocks++;
    parts.set(key, part);
  }
  return [...parts.values()];
}

function ringMark(at, color, name) {
  const turn = turnOf(at);
  const line = drawing("path", { d: `M${onRing(turn, RING.inner - 5)}L${onRing(turn, RING.outer + 7)}`, stroke: `var(${color})`, "stroke-width": 2.5 });
  return title(line, name);
}

function drawRing() {
  const ring = byId("ring");
  const gap = log.containers > 64 ? 0 : 0.008;
  for (let index = 0; index < log.containers; index++) {
    const [from, to] = [turnOf(index * sectors) + gap, turnOf((index + 1) * sectors) - gap];
    const name = listed[index] ? `container ${listed[index][0]}, file c${listed[index][1]}` : "free";
    ring.append(title(arc(from, to, RING.inner, RING.outer, "--free"), name));
    if (log.containers <= 32 && listed[index]) {
      const [x, y] = onRing((from + to) / 2, RING.inner - 14).split(" ");
      ring.append(drawing("text", { x, y: +y + 4, "text-anchor": "middle", class: "dim" }, listed[index][0]));
    }
  }
  for (const part of ringParts()) {
    const full = Math.max(0.12, part.used / ((part.to - part.from) * SECTOR));
    const outer = RING.inner + (RING.outer - RING.inner) * Math.min(1, full);
    const shape = arc(turnOf(part.from), Math.max(turnOf(part.to), turnOf(part.from) + 0.004), RING.inner, outer, part.live ? "--live" : "--dead");
    ring.append(title(shape, `${counted(part.blocks, "block")}${part.live ? "" : ", no live record"}`));
  }
  for (const holder of log.status ? log.status.holders : []) {
    ring.append(ringMark(reachOf(holder.start), holderColor(holder), holder.number === null ? "archive tail" : `stream ${holder.name}`));
  }
  ring.append(ringMark(endReach, log.damage ? "--bad" : "--ink", endName));
  tellRing(ring);
}

function tellRing(ring) {
  const free = log.status && log.status.free;
  const inUse = free ? log.containers - free.containers : listed.length;
  const below = `${inUse} of ${log.containers} in use`;
  ring.append(drawing("text", { x: RING.x, y: RING.y - 2, "text-anchor": "middle", class: "percent" }, free ? `${log.status.percent} %` : "?"));
  ring.append(drawing("text", { x: RING.x, y: RING.y + 18, "text-anchor": "middle", class: "dim" }, free ? below : endName === "damage" ? "damaged" : "not known"));
  ring.setAttribute("aria-label", `The containers of the log as a ring: ${below}`);
}

// The lanes. What can be seen of the bars is drawn on a canvas, all else lies over it.

const EDGE = 10;
const TOP = 40;
const ROW = streams.length > 24 ? 24 : 34;
const BAR = ROW - 20;
const height = TOP + streams.length * ROW + 22;
const lanes = byId("lanes");
// The greatest scale, in pixels for a sector: a few sectors fill the window, and all lanes are no wider than a browser can have them.
const GREATEST = Math.min(40, 8e6 / width);
let scale = 1;
let chosen = -1;

let scrolled = 0;
let seen = 0;

// What can be seen of the lanes: from `scrolled` on, `seen` wide. It is asked for once in a drawing, since asking takes time.
function measure() {
  scrolled = lanes.scrollLeft;
  seen = lanes.clientWidth;
}

const fitting = () => Math.max(1e-6, (seen - 2 * EDGE) / width);
const xOf = (at) => EDGE + at * scale - scrolled;
const atX = (x) => (scrolled + x - EDGE) / scale;
const yOf = (stream) => TOP + stream.row * ROW + 16;

function colorsNow() {
  const style = getComputedStyle(document.documentElement);
  const known = {};
  return (name) => known[name] || (known[name] = style.getPropertyValue(name).trim());
}

function drawGround(pen, color) {
  listed.forEach(([number], index) => {
    const [from, to] = [xOf(index * sectors), xOf((index + 1) * sectors)];
    if (to < 0 || from > seen) return;
    pen.fillStyle = color(index % 2 ? "--paper" : "--stripe");
    pen.fillRect(from, 0, to - from, height);
    if (to - from > 26 || index % Math.ceil(26 / (to - from)) === 0) {
      pen.fillStyle = color("--dim");
      pen.fillText(to - from > 90 ? `container ${number}` : number, Math.max(from, 0) + 4, 12);
    }
  });
}

// A block that would be narrower than half a pixel is drawn only if it begins at another pixel than the last one.
function drawBlocks(pen, color) {
  let drawn = -1;
  for (let block = Math.max(0, lowest(blockReach, atX(0)) - 1); block < blockReach.length; block++) {
    const x = xOf(blockReach[block]);
    if (x > seen) break;
    const wide = log.blocks.sectors[block] * scale;
    if (wide < 0.5 && Math.floor(x) === drawn) continue;
    drawn = Math.floor(x);
    pen.fillStyle = color(isLiveBlock[block] ? "--live" : "--dead");
    pen.fillRect(x, 18, Math.max(1, wide - (wide > 3 ? 1 : 0)), 8);
  }
}

// The records of a stream that can be seen: as bars, or where there are several at a pixel as one that is the darker the more there are.
function drawStream(pen, color, stream) {
  const from = lowest(stream.at, atX(-4));
  const to = lowest(stream.at, atX(seen + 4));
  const y = yOf(stream);
  pen.fillStyle = color("--line");
  pen.fillRect(0, y + BAR / 2, seen, 1);
  pen.fillStyle = color(stream.color);
  if (to - from > seen / 3) drawDense(pen, stream, from, to, y);
  else {
    const wide = Math.max(1.5, Math.min(7, scale * 0.5));
    for (let member = from; member < to; member++) {
      pen.globalAlpha = isLive[stream.members[member]] ? 1 : 0.3;
      pen.fillRect(xOf(stream.at[member]) - wide / 2, y, wide, BAR);
    }
  }
  pen.globalAlpha = 1;
}

function drawDense(pen, stream, from, to, y) {
  const all = new Uint32Array(seen + 16);
  const live = new Uint32Array(seen + 16);
  const firstLive = lowest(stream.members, lowest(records.place, stream.basePlace));
  for (let member = from; member < to; member++) {
    const pixel = Math.floor(xOf(stream.at[member])) + 8;
    all[pixel]++;
    if (member >= firstLive) live[pixel]++;
  }
  const greatest = all.reduce((most, number) => Math.max(most, number), 1);
  all.forEach((number, pixel) => {
    if (!number) return;
    const dark = 0.5 + (0.5 * number) / greatest;
    pen.globalAlpha = live[pixel] ? dark : 0.35 * dark;
    pen.fillRect(pixel - 8, y, 1, BAR);
  });
}

const restarts = Object.keys(records.restarts).map(Number);

function drawRestarts(pen, color) {
  let shown = 0;
  for (const index of restarts) {
    const stream = streamOf.get(records.stream[index]);
    const [x, y] = [xOf(reach[index]), yOf(stream) + BAR / 2];
    if (x < -6 || x > seen + 6 || shown++ > 2000) continue;
    pen.fillStyle = color(isLive[index] ? stream.color : "--paper");
    pen.strokeStyle = color(stream.color);
    pen.beginPath();
    pen.moveTo(x - 6, y);
    pen.lineTo(x, y - 6);
    pen.lineTo(x + 6, y);
    pen.lineTo(x, y + 6);
    pen.closePath();
    pen.fill();
    pen.stroke();
  }
}

function drawBars() {
  const canvas = byId("bars");
  const pixels = window.devicePixelRatio || 1;
  const [wide, tall] = [Math.round(seen * pixels), Math.round(height * pixels)];
  if (canvas.width !== wide || canvas.height !== tall) Object.assign(canvas, { width: wide, height: tall });
  canvas.style.width = `${seen}px`;
  canvas.style.height = `${height}px`;
  const pen = canvas.getContext("2d");
  const color = colorsNow();
  pen.setTransform(pixels, 0, 0, pixels, 0, 0);
  pen.clearRect(0, 0, seen, height);
  pen.font = '11px system-ui, "DejaVu Sans", sans-serif';
  drawGround(pen, color);
  drawBlocks(pen, color);
  for (const stream of streams) drawStream(pen, color, stream);
  drawRestarts(pen, color);
}

// Lines, flags, names and the links of the record that was chosen.

function baseMark(stream) {
  const x = xOf(placeOf(stream.base) === -1 ? 0 : reachOfPlace(stream.basePlace));
  const y = yOf(stream);
  const mark = drawing("path", { class: "base", d: `M${x} ${y + BAR}V${y - 12}l9 4l-9 4`, fill: `var(${stream.color})`, stroke: `var(${stream.color})`, "stroke-width": 1.5 });
  return title(mark, `base of ${stream.name}: ${stream.base}`);
}

// Where a place lies: before the record that it names, or behind the last one of its block.
function reachOfPlace(place) {
  if (place === Infinity) return width;
  const index = lowest(records.place, place);
  const isIn = index < count && records.place[index] === place;
  if (isIn) return reach[index] - 0.5 / log.blocks.records[blockOf[index]];
  const block = lowest(log.blocks.place, place + 1) - 1;
  return block < 0 ? 0 : Math.min(blockReach[block] + log.blocks.sectors[block], (place >>> 23) * sectors + ((place >>> 9) & 0x3fff) + (place & 0x1ff ? 1 : 0));
}

function lineMark(at, name, color, dash, level) {
  const x = xOf(at);
  const side = x > seen - 80 ? { x: x - 4, "text-anchor": "end" } : { x: x + 4 };
  const line = drawing("path", { class: name.replace(" ", "-"), d: `M${x} 16V${height - 18}`, stroke: `var(${color})`, "stroke-width": 1.5, "stroke-dasharray": dash });
  const label = drawing("text", { ...side, y: height - 6 - level * 12 }, name);
  label.style.fill = `var(${color})`;
  return [title(line, name), label];
}

function linkMark(from, to, name, dash) {
  const [a, b] = [from, to].map((index) => ({ x: xOf(reach[index]), y: yOf(streamOf.get(records.stream[index])) }));
  const rise = Math.min(28, 10 + Math.abs(a.x - b.x) / 12);
  return drawing("path", { class: name, d: `M${a.x} ${a.y}C${a.x} ${a.y - rise} ${b.x} ${b.y - rise} ${b.x} ${b.y}`, fill: "none", stroke: "var(--ink)", "stroke-width": 1.3, "stroke-dasharray": dash });
}

// The chain of previous links from the chosen record on, as far as it goes in 200 steps, and its undo-next link.
function chosenMarks() {
  const marks = [];
  let index = chosen;
  for (let step = 0; step < 200 && typeof records.previous[index] === "number" && records.previous[index]; step++) {
    marks.push(linkMark(index, records.previous[index] - 1, "previous", "none"));
    index = records.previous[index] - 1;
  }
  const undo = records.undo[chosen];
  if (typeof undo === "number" && undo) marks.push(linkMark(chosen, undo - 1, "undo", "3 3"));
  const stream = streamOf.get(records.stream[chosen]);
  marks.push(drawing("circle", { class: "choice", cx: xOf(reach[chosen]), cy: yOf(stream) + BAR / 2, r: 11, fill: "none", stroke: "var(--ink)", "stroke-width": 2 }));
  return marks;
}

function nameMark(stream) {
  const text = stream.members.length ? stream.name : `${stream.name} (no records)`;
  const mark = drawing("text", { x: 6, y: yOf(stream) - 3, class: "name" }, text);
  mark.style.fill = `var(${stream.color})`;
  mark.style.fontWeight = 600;
  return mark;
}

function drawMarks() {
  const marks = [];
  for (const stream of streams) if (stream.base !== "0:0:0") marks.push(baseMark(stream));
  const isClose = tailReach !== null && Math.abs(tailReach - endReach) * scale < 70;
  if (tailReach !== null) marks.push(...lineMark(tailReach, "archive tail", "--dim", "4 3", 0));
  marks.push(...lineMark(endReach, endName, log.damage ? "--bad" : "--ink", "none", isClose ? 1 : 0));
  if (chosen >= 0) marks.push(...chosenMarks());
  marks.push(...streams.map(nameMark));
  byId("marks").replaceChildren(...marks);
}

function draw() {
  measure();
  byId("reach").style.width = `${Math.ceil(2 * EDGE + width * scale)}px`;
  byId("view").style.width = `${seen}px`;
  byId("view").style.height = `${height}px`;
  drawBars();
  drawMarks();
}

let isWhole = true;

// Changes the scale and keeps what lies in the middle, or the chosen record if it can be seen, where it is.
function zoom(factor) {
  measure();
  const choice = chosen >= 0 ? xOf(reach[chosen]) : -1;
  const middle = choice >= 0 && choice <= seen ? choice : seen / 2;
  const at = atX(middle);
  const whole = fitting();
  scale = factor ? Math.max(whole, Math.min(GREATEST, scale * factor)) : whole;
  isWhole = scale === whole;
  byId("reach").style.width = `${Math.ceil(2 * EDGE + width * scale)}px`;
  lanes.scrollLeft = EDGE + at * scale - middle;
  draw();
}
