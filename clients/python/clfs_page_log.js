"use strict";

// The log, as clfs_page.py made it, and the parts of a page that are made of it.

const log = JSON.parse(document.getElementById("log").textContent);
const SECTOR = 512;
const COLORS = 8;
const sectors = log.containerSectors;
const listed = log.listed;
const records = log.records;
const count = records.place.length;
const byId = (id) => document.getElementById(id);
const grouped = (number) => number.toLocaleString("en");
const counted = (number, thing) => `${grouped(number)} ${thing}${number === 1 ? "" : "s"}`;

function sizeText(bytes) {
  for (const [unit, name] of [[1 << 30, "GiB"], [1 << 20, "MiB"], [1 << 10, "KiB"]]) {
    if (bytes >= unit) return `${(bytes / unit).toFixed(1).replace(/\.0$/, "")} ${name}`;
  }
  return `${bytes} B`;
}

// A place is the number that stands for an LSN: the container's index, 14 bits of the sector, 9 of the sequence.
function lsnText(place) {
  const container = listed[place >>> 23][0];
  return `${container.toString(16)}:${(((place >>> 9) & 0x3fff) * SECTOR).toString(16)}:${(place & 0x1ff).toString(16)}`;
}

// The parts of an LSN, or null if the text is none.
function lsnParts(text) {
  if (!/^[0-9a-f]{1,8}:[0-9a-f]{1,8}:[0-9a-f]{1,3}$/.test(text)) return null;
  const [container, offset, sequence] = text.split(":").map((part) => parseInt(part, 16));
  return { container, offset, sequence };
}

const first = listed.length ? listed[0][0] : 1;

// The place of an LSN, below all or above all where its container isn't listed.
function placeOf(text) {
  const { container, offset, sequence } = lsnParts(text);
  if (container < first) return -1;
  if (container >= first + listed.length) return Infinity;
  return (container - first) * 2 ** 23 + (offset / SECTOR) * 2 ** 9 + sequence;
}

// How far from the start of the first container an LSN lies, in sectors.
function reachOf(text) {
  const { container, offset } = lsnParts(text);
  return container < first ? 0 : (container - first) * sectors + offset / SECTOR;
}

// The index of the first of these ascending values that is at or above one.
function lowest(values, value) {
  let low = 0;
  let high = values.length;
  while (low < high) {
    const middle = (low + high) >> 1;
    if (values[middle] < value) low = middle + 1;
    else high = middle;
  }
  return low;
}

const streams = log.streams.map((stream, row) => ({
  ...stream, row, color: `--stream${(stream.number - 1) % COLORS}`, basePlace: placeOf(stream.base), members: [], at: [],
}));
const streamOf = new Map(streams.map((stream) => [stream.number, stream]));
const blockReach = log.blocks.place.map((place) => (place >>> 23) * sectors + ((place >>> 9) & 0x3fff));
const isLiveBlock = new Uint8Array(blockReach.length);
const blockOf = new Uint32Array(count);
const reach = new Float64Array(count);
const isLive = new Uint8Array(count);
let liveCount = 0;

// Each record's block, its place on the lanes, beside the others of its block, and whether it is live.
function placeRecords() {
  let block = -1;
  for (let index = 0; index < count; index++) {
    const place = records.place[index];
    while (block + 1 < blockReach.length && log.blocks.place[block + 1] <= place) block++;
    const stream = streamOf.get(records.stream[index]);
    blockOf[index] = block;
    reach[index] = blockReach[block] + (log.blocks.sectors[block] * ((place & 0x1ff) + 0.5)) / log.blocks.records[block];
    isLive[index] = place >= stream.basePlace ? 1 : 0;
    if (isLive[index]) {
      liveCount++;
      isLiveBlock[block] = 1;
    }
    stream.members.push(index);
    stream.at.push(reach[index]);
  }
}
placeRecords();

const lastBlock = blockReach.length - 1;
const endReach = log.damage
  ? Math.max(0, log.damage.container - first) * sectors + log.damage.offset / SECTOR
  : log.end ? reachOf(log.end) : lastBlock < 0 ? 0 : blockReach[lastBlock] + log.blocks.sectors[lastBlock];
const endName = log.damage ? "damage" : "end";
const tailReach = log.tail === null ? null : reachOf(log.tail);
const width = Math.max(1, listed.length) * sectors;

// Elements.

function element(name, members = {}, ...children) {
  const made = document.createElement(name);
  for (const [key, value] of Object.entries(members)) {
    if (key in made) made[key] = value;
    else made.setAttribute(key, value);
  }
  made.append(...children);
  return made;
}

function drawing(name, members, text) {
  const made = document.createElementNS("http://www.w3.org/2000/svg", name);
  for (const [key, value] of Object.entries(members)) made.setAttribute(key, value);
  if (text !== undefined) made.textContent = text;
  return made;
}

function title(of, text) {
  of.append(drawing("title", {}, text));
  return of;
}

function goTo(text, index) {
  return element("button", { type: "button", className: "link code", onclick: () => choose(index, true) }, text);
}

function colorKey(color) {
  const key = element("span", { className: "key" });
  key.style.background = `var(${color})`;
  return key;
}
