// The head of the page.

function tellHead() {
  const [lead, ...keepers] = log.lines;
  byId("lead").textContent = lead;
  byId("lead").className = log.damage || !log.status ? "bad" : "";
  byId("keepers").textContent = keepers.join(" ");
  const facts = [`${counted(count, "record")}, ${grouped(liveCount)} live, in ${counted(blockReach.length, "block")} of up to ${sizeText(log.blockSectors * SECTOR)}`];
  facts.push(log.tail === null ? "archiving is off" : `archive tail ${log.tail}`);
  if (log.end) facts.push(`the log goes on at ${log.end}`);
  facts.push(`form of version ${log.version}`);
  if (log.status && log.status.program) facts.push(`read by ${log.status.program}`);
  if (log.status && log.status.unsynced) facts.push("a sync had failed: the program has copied the files");
  byId("facts").textContent = facts.join("; ") + ".";
}

// What holds the space. Holders with which no more is free stand in one row with the next one.

function holderGroups() {
  const groups = [];
  let rest = [];
  for (const holder of log.status ? log.status.holders : []) {
    rest.push(holder);
    const before = groups.length ? groups[groups.length - 1].then : log.status.free;
    if (holder.free_then && holder.free_then.containers > before.containers) {
      groups.push({ holders: rest, then: holder.free_then });
      rest = [];
    }
  }
  if (rest.length) groups.push({ holders: rest, then: null });
  return groups;
}

function holderColor(holder) {
  return holder.number === null ? "--ink" : streamOf.get(holder.number).color;
}

function holderNames(holders) {
  const shown = holders.slice(0, 8);
  const lines = shown.map((holder) => {
    const name = holder.number === null ? "archiving" : `stream ${holder.name}`;
    const live = holder.live_records === null ? "" : `, ${grouped(holder.live_records)} live`;
    const index = lowest(records.place, placeOf(holder.start));
    const from = index < count ? goTo(holder.start, index) : element("code", {}, holder.start);
    return element("div", {}, colorKey(holderColor(holder)), element("b", {}, name), " from ", from, live);
  });
  if (holders.length > shown.length) lines.push(element("div", { className: "dim" }, `and ${holders.length - shown.length} more`));
  return lines;
}

function tellHolders() {
  const groups = holderGroups();
  if (!groups.length) {
    byId("holders").append(log.status ? "Nothing: no stream has a live record, and archiving is off." : "It isn't known.");
    return;
  }
  const head = ["Held by", "To the end", "Free once these and those above have moved"];
  const body = groups.map(({ holders, then }) => {
    const bytes = holders[0].bytes === null ? "not known" : sizeText(holders[0].bytes);
    const free = log.damage ? "not known" : then ? `${then.containers} of ${log.containers} containers, ${sizeText(then.bytes)}` : "no more";
    return element("tr", {}, element("td", {}, ...holderNames(holders)), element("td", { className: "number" }, bytes), element("td", {}, free));
  });
  const heads = head.map((text, column) => element("th", { scope: "col", className: column === 1 ? "number" : "" }, text));
  byId("holders").append(element("table", { "aria-labelledby": "holders-title" }, element("thead", {}, element("tr", {}, ...heads)), element("tbody", {}, ...body)));
}

function tellStreams() {
  const rows = streams.map((stream) => {
    const live = stream.members.reduce((sum, index) => sum + isLive[index], 0);
    const last = stream.members.length ? goTo(lsnText(records.place[stream.members[stream.members.length - 1]]), stream.members[stream.members.length - 1]) : "none";
    const numbers = [stream.members.length, live].map((number) => element("td", { className: "number" }, grouped(number)));
    const number = element("td", { className: "number" }, String(stream.number));
    return element("tr", {}, element("td", {}, colorKey(stream.color), element("b", {}, stream.name)), number, element("td", { className: "code" }, stream.base), element("td", {}, last), ...numbers);
  });
  document.querySelector("#streams tbody").append(...rows);
}

// The record that was chosen.

function linkCell(link) {
  if (link === 0) return "none";
  if (typeof link === "number") return goTo(lsnText(records.place[link - 1]), link - 1);
  return element("span", {}, element("code", {}, link), element("span", { className: "dim" }, " isn't in this dump"));
}

function bytesOf(index) {
  const hex = records.data ? records.data[index] : "";
  return Uint8Array.from({ length: hex.length / 2 }, (_, at) => parseInt(hex.slice(2 * at, 2 * at + 2), 16));
}

function plainText(bytes) {
  return new TextDecoder().decode(bytes).replace(/[\u0000-\u0008\u000b-\u001f\u007f-\u009f]/g, "\u00b7");
}

function hexText(bytes) {
  const across = byId("chosen").clientWidth < 560 ? 8 : 16;
  const lines = [];
  for (let at = 0; at < bytes.length; at += across) {
    const piece = [...bytes.slice(at, at + across)];
    const hex = piece.map((byte) => byte.toString(16).padStart(2, "0")).join(" ").padEnd(3 * across - 1);
    lines.push(`${at.toString(16).padStart(4, "0")}  ${hex}  ${piece.map((byte) => (byte > 31 && byte < 127 ? String.fromCharCode(byte) : ".")).join("")}`);
  }
  return lines.join("\n");
}

function dataElements(index) {
  if (!records.data) return [element("p", { className: "dim" }, "The dump was made without data.")];
  const bytes = bytesOf(index);
  const length = records.lengths[index] || bytes.length;
  if (!length) return [element("p", { className: "dim" }, "No data.")];
  const only = length > bytes.length ? `, of which the first ${grouped(bytes.length)} are here` : "";
  return [
    element("p", {}, `${counted(length, "byte")} of data${only}:`),
    element("pre", { className: "text", tabIndex: 0, "aria-label": "data as text" }, plainText(bytes)),
    element("pre", { tabIndex: 0, "aria-label": "data as hex" }, hexText(bytes)),
  ];
}

function tellChosen() {
  const [index, stream] = [chosen, streamOf.get(records.stream[chosen])];
  const isRestart = index in records.restarts;
  const block = blockOf[index];
  const name = element("b", {}, stream.name);
  name.style.color = `var(${stream.color})`;
  const what = element("span", {}, element("code", {}, lsnText(records.place[index])), isRestart ? " restart area" : " data", ` of stream ${stream.number} `, name, isLive[index] ? "" : ", below the base");
  const rows = [["LSN", what], ["previous", linkCell(records.previous[index])], ["undo next", linkCell(records.undo[index])]];
  if (isRestart) rows.push(["new base", element("code", {}, records.restarts[index])]);
  const used = `, ${counted(log.blocks.sectors[block], "sector")}, ${counted(log.blocks.records[block], "record")}, ${counted(log.blocks.used[block], "byte")} used`;
  rows.push(["block", element("span", {}, element("code", {}, lsnText(log.blocks.place[block])), used)]);
  const beside = element("span", {});
  if (index > 0) beside.append(goTo("the record before", index - 1), " ");
  if (index + 1 < count) beside.append(" ", goTo("the record after", index + 1));
  rows.push(["in the log", beside]);
  const body = rows.map(([head, cell]) => element("tr", {}, element("th", { scope: "row" }, head), element("td", {}, cell)));
  byId("chosen").className = "";
  byId("chosen").replaceChildren(element("table", {}, element("tbody", {}, ...body)), ...dataElements(index));
}

// Brings the chosen record into sight, and the table to its page if that is wanted.
function choose(index, withTable) {
  const began = performance.now();
  chosen = index;
  measure();
  const x = xOf(reach[index]);
  const isInSight = x >= 20 && x <= seen - 20;
  const y = yOf(streamOf.get(records.stream[index]));
  if (y - 20 < lanes.scrollTop || y + BAR + 8 > lanes.scrollTop + lanes.clientHeight) lanes.scrollTop = y - lanes.clientHeight / 2;
  if (!isInSight) lanes.scrollLeft += x - seen / 2;
  const hadFocus = byId("chosen").contains(document.activeElement);
  tellChosen();
  if (hadFocus) byId("chosen").focus();
  if (isInSight) drawMarks();
  else draw();
  if (withTable) showRow(index);
  markRow();
  history.replaceState(null, "", `#${lsnText(records.place[index])}`);
  document.documentElement.dataset.answered = (performance.now() - began).toFixed(1);
}

// The table of records: those that were searched for, a page at a time.

const PAGE = 50;
let found = null;
let page = 0;

const foundCount = () => (found ? found.length : count);
const foundAt = (position) => (found ? found[position] : position);

function dataCell(index) {
  if (!records.data) return "";
  const bytes = bytesOf(index).slice(0, 40);
  const length = records.lengths[index] || records.data[index].length / 2;
  return plainText(bytes).replace(/\s+/g, " ") + (length > bytes.length ? "\u2026" : "");
}

function row(index) {
  const link = (value) => (value === 0 ? "" : typeof value === "number" ? lsnText(records.place[value - 1]) : value);
  const cells = [
    goTo(lsnText(records.place[index]), index), streamOf.get(records.stream[index]).name, index in records.restarts ? "restart area" : "data",
    isLive[index] ? "yes" : "no", link(records.previous[index]), link(records.undo[index]), dataCell(index),
  ];
  const made = element("tr", {}, ...cells.map((cell) => element("td", {}, cell)));
  made.dataset.index = index;
  return made;
}

function showTable() {
  const [from, to] = [page * PAGE, Math.min(foundCount(), (page + 1) * PAGE)];
  const rows = [];
  for (let position = from; position < to; position++) rows.push(row(foundAt(position)));
  document.querySelector("#records tbody").replaceChildren(...rows);
  byId("found").textContent = foundCount() ? `${grouped(from + 1)} to ${grouped(to)} of ${grouped(foundCount())} records` : "No record.";
  byId("earlier").disabled = page === 0;
  byId("later").disabled = to >= foundCount();
  markRow();
}

function showRow(index) {
  const position = found ? lowest(found, index) : index;
  if (foundAt(position) !== index) return;
  const hadFocus = byId("records").contains(document.activeElement);
  page = Math.floor(position / PAGE);
  showTable();
  if (hadFocus) document.querySelector("#records tr.chosen button").focus();
}

function markRow() {
  for (const each of document.querySelectorAll("#records tbody tr")) each.classList.toggle("chosen", +each.dataset.index === chosen);
}

// The bytes that are looked for, as hex digits, or null if there are none of these.
function wantedBytes() {
  const text = byId("by-data").value;
  if (byId("data-form").value === "text") return [...new TextEncoder().encode(text)].map((byte) => byte.toString(16).padStart(2, "0")).join("");
  const hex = text.replace(/\s+/g, "").toLowerCase();
  return /^([0-9a-f]{2})*$/.test(hex) ? hex : null;
}

function hasBytes(hex, wanted) {
  for (let at = hex.indexOf(wanted); at >= 0; at = hex.indexOf(wanted, at + 1)) if (at % 2 === 0) return true;
  return false;
}

function search() {
  const stream = +byId("by-stream").value;
  const wanted = wantedBytes();
  found = null;
  if (wanted === null) found = [];
  else if (stream || wanted) {
    const members = stream ? streamOf.get(stream).members : records.place.keys();
    found = [...members].filter((index) => !wanted || (records.data && hasBytes(records.data[index], wanted)));
  }
  page = 0;
  showTable();
  if (wanted === null) byId("found").textContent = "Hex digits come in pairs.";
  else if (wanted && records.data && Object.keys(records.lengths).length) byId("found").textContent += ", by the bytes that are in this page";
}

// The record of the LSN, or the first one above it.
function searchLsn(text) {
  if (!lsnParts(text)) {
    byId("found").textContent = "An LSN has the form 1:200:0.";
    return;
  }
  const index = lowest(records.place, placeOf(text));
  if (index === count) byId("found").textContent = "No record is there or above.";
  else choose(index, true);
}

// Keys and clicks.

function nearest(stream, at) {
  const member = lowest(stream.at, at);
  const before = member > 0 && (member === stream.at.length || at - stream.at[member - 1] < stream.at[member] - at);
  return stream.members[before ? member - 1 : member];
}

function along(steps) {
  const stream = streamOf.get(records.stream[chosen]);
  const member = lowest(stream.members, chosen) + steps;
  return stream.members[Math.max(0, Math.min(stream.members.length - 1, member))];
}

function across(steps) {
  let next = streamOf.get(records.stream[chosen]).row + steps;
  while (streams[next] && !streams[next].members.length) next += steps;
  return streams[next] ? nearest(streams[next], reach[chosen]) : chosen;
}

function linked(links) {
  return typeof links[chosen] === "number" && links[chosen] ? links[chosen] - 1 : chosen;
}

const MOVES = {
  ArrowLeft: () => along(-1), ArrowRight: () => along(1), ArrowUp: () => across(-1), ArrowDown: () => across(1),
  Home: () => along(-count), End: () => along(count), p: () => linked(records.previous), u: () => linked(records.undo),
};
const ZOOMS = { "+": 1.6, "-": 1 / 1.6, 0: 0 };

function onKey(event) {
  if (event.ctrlKey || event.metaKey || event.altKey) return;
  if (event.key in ZOOMS) zoom(ZOOMS[event.key]);
  else if (event.key in MOVES && count) choose(chosen < 0 ? 0 : MOVES[event.key](), true);
  else return;
  event.preventDefault();
}

function onClick(event) {
  const box = lanes.getBoundingClientRect();
  measure();
  const at = atX(event.clientX - box.left);
  const stream = streams[Math.floor((event.clientY - box.top + lanes.scrollTop - TOP) / ROW)];
  if (stream && stream.members.length) choose(nearest(stream, at), true);
}

function listen() {
  lanes.addEventListener("keydown", onKey);
  lanes.addEventListener("click", onClick);
  lanes.addEventListener("scroll", () => requestAnimationFrame(draw));
  byId("closer").onclick = () => zoom(1.6);
  byId("further").onclick = () => zoom(1 / 1.6);
  byId("whole").onclick = () => zoom(0);
  byId("earlier").onclick = () => { page--; showTable(); };
  byId("later").onclick = () => { page++; showTable(); };
  byId("search").onsubmit = (event) => {
    event.preventDefault();
    search();
    const text = byId("by-lsn").value.trim();
    if (text) searchLsn(text);
  };
  window.addEventListener("resize", () => zoom(isWhole ? 0 : 1));
  window.matchMedia("(prefers-color-scheme: dark)").addEventListener("change", draw);
}

function chooseByHash() {
  const text = location.hash.slice(1);
  const index = lsnParts(text) ? records.place.indexOf(placeOf(text)) : -1;
  if (index >= 0) choose(index, true);
}

tellHead();
tellHolders();
tellStreams();
drawRing();
for (const stream of streams) byId("by-stream").append(element("option", { value: stream.number }, stream.name));
zoom(0);
showTable();
listen();
chooseByHash();
window.addEventListener("hashchange", chooseByHash);
document.documentElement.dataset.loaded = performance.now().toFixed(0);
