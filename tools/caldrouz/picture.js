"use strict";
/* Draws a run into the elements of picture.html: its lanes and frames, the state after a row and the rows around it, by the facts that
   tools/caldrouz/page.py lists. It is the picture of the pages of tools/view, and of the page that runs the program. Not proved. */
const Picture = (() => {
const $ = id => document.getElementById(id);
let facts, first, last, lanes, rows, lines, moments, count, outside_used;
const esc = text => String(text).replace(/[&<>"]/g, c => ({"&": "&amp;", "<": "&lt;", ">": "&gt;", '"': "&quot;"}[c]));
const coded = text => esc(text).replace(/`([^`]*)`/g, "<code>$1</code>");
const NARROW = 500, RIGHT = 44, TOP = 42, BAR = 26, GRAPH = 24, GAP = 30, LONG_PAUSE = 10000;
let current = 0, scale = 1, fitted = true, axis = "time", places_of = [], end_of_axis = 1, breaks = [], drawn = {y: []};

// --- the axis: where a row stands, from 0
function set_axis() {
  places_of = new Float64Array(count); breaks = [];
  if (axis === "row") { for (let i = 0; i < count; i++) places_of[i] = i + .5; end_of_axis = Math.max(1, count); return; }
  let at = 0, greatest = count ? moments[0] : 0;
  for (let i = 0; i < count; i++) {
    const step = moments[i] - greatest;
    if (step > 0) { at += step > LONG_PAUSE ? 1000 : step; greatest = moments[i]; if (step > LONG_PAUSE) breaks.push([i, step]); }
    places_of[i] = at;
  }
  end_of_axis = Math.max(1, at) * 1.005;
}
const place = r => r <= first ? (axis === "row" ? .5 : 0) : r > last ? end_of_axis : places_of[r - first];
const edge = r => axis === "row" ? Math.min(Math.max(r - first, 0), count) : place(r);
const width = () => Math.max(300, $("strip").clientWidth);
const left = w => w < NARROW ? 80 : 112; // where the lanes begin, behind their names
const room = () => width() - left(width()) - RIGHT;
function fit() { scale = room() / end_of_axis; if (axis === "row") scale = Math.min(scale, 26); }

// --- what a row says
function says(r) {
  const word = rows[r - first].split(" "), said = facts.said[r - first], line = lines[r - first].split(" ");
  if (word[0] === "send" || word[0] === "asend") return frame_words(line[2]);
  if (word[0] === "ext") return frame_words(line[1]);
  if (word[0] !== "rx" && word[0] !== "arx") return said;
  const seen = line[1] === "stop" || line[1] === "fault" ? "" : word[0] === "rx" ? line[6] : line[3];
  const who = word[0] === "rx" ? "member " + word[1] : "device a" + word[1], what = frame_words(word[2]);
  const verb = seen === "part" ? "has a part of a transfer" : seen === "bad" ? "cannot read" : seen.startsWith("drop") ? "drops, since " + (facts.drops[seen] || seen) : "hears";
  return who + " " + verb + ": " + what + (said ? " → " + said : "");
}
const frame_words = k => facts.frames[k] || "frame " + k + ", of a row that is not on this page";
function state_at(lane, r) {
  const list = lane.states; let low = 0, high = list.length - 1, found = list[0];
  while (low <= high) { const middle = (low + high) >> 1; if (list[middle][0] <= r) { found = list[middle]; low = middle + 1; } else high = middle - 1; }
  return found;
}
const short_name = lane => lane.kind === "device" || lane.kind === "heard" ? "… " + lane.name.slice(-10) : lane.name;
const role_words = what => facts.roles[what] || ({never: "not there yet", wait: "waits for a node ID", hold: "holds a node ID", gone: "gone"}[what] || what);

// --- the picture
function shown_lanes() {
  return lanes.map((lane, i) => i).filter(i => lanes[i].kind === "member" || (lanes[i].kind === "outside" ? outside_used : $("devices").checked));
}
/* The labels of the marks at which node IDs are told, by the mark: where it stands, and what it says. Where labels would lie over
   one another, there is one for all of them, behind the last. */
function labels_of_ids(x_of, y, w) {
  const found = new Map(), told = facts.marks.filter(mark => (mark[2] === "told" || mark[2] === "hold") && y[mark[1]] !== undefined);
  for (const i of new Set(told.map(mark => mark[1]))) {
    const marks = told.filter(mark => mark[1] === i).map(mark => [x_of(mark[0]), mark]).sort((a, b) => a[0] - b[0]);
    let from = 0;
    marks.forEach(([at, mark], n) => {
      const ids = [...new Set(marks.slice(from, n + 1).map(one => one[1][3]))];
      const words = ids.length > 3 ? `${ids[0]} … ${ids[ids.length - 1]}` : ids.join(", "), long = 7 * words.length + 9;
      if (n + 1 < marks.length && marks[n + 1][0] - at < long + 9) return;
      found.set(mark, [at + long <= w ? `x="${at + 9}"` : `x="${marks[from][0] - 9}" text-anchor="end"`, words]);
      from = n + 1;
    });
  }
  return found;
}
function draw(whole) {
  const strip = $("strip"), scroll = whole ? 0 : strip.scrollLeft, w = whole ? 1040 : width();
  const LEFT = left(w);
  if (whole) { scale = (w - LEFT - RIGHT) / end_of_axis; }
  const x = p => LEFT + p * scale - scroll, out = [], y = [];
  let down = TOP + 6;
  for (const i of shown_lanes()) {
    const kind = lanes[i].kind;
    if (kind === "member") { down += GAP; y[i] = down; down += BAR + GRAPH; }
    else { y[i] = down; down += kind === "outside" ? 20 : 22; }
  }
  const bottom = down + 10, left_most = LEFT - 2, see = (a, b) => Math.max(a, b) >= left_most && Math.min(a, b) <= w;
  drawn = {y, bottom, scroll};
  const middle = i => y[i] === undefined ? y[0] ?? TOP : lanes[i].kind === "member" ? y[i] + BAR / 2 : y[i] + 9;
  const rim = (i, to) => lanes[i].kind !== "member" || y[i] === undefined ? middle(i) : to > middle(i) ? y[i] + BAR : y[i];
  // the axis
  const label = (at, upper, lower) => {
    const anchor = at < LEFT + 30 ? "start" : "middle";
    out.push(`<line class="grid" x1="${at}" x2="${at}" y1="${TOP - 8}" y2="${bottom}"/><text x="${at}" y="14" text-anchor="${anchor}">${upper}</text><text class="small" x="${at}" y="27" text-anchor="${anchor}">${lower}</text>`);
  };
  const units = [1, 2, 5, 10, 20, 50, 100, 200, 500, 1000, 2000, 5000, 10000, 20000, 50000, 100000, 200000, 500000, 1000000];
  if (axis === "row") {
    const step = units.find(u => u * scale >= 78) || units[units.length - 1];
    for (let r = Math.ceil(first / step) * step; r <= last; r += step) {
      const at = x(place(r)); if (see(at, at)) label(at, "row " + r, moments[r - first].toLocaleString("en") + " ms");
    }
  } else {
    let before = -1e9;
    for (let i = 0; i < count; i++) {
      const at = x(places_of[i]); if (at - before < 92 || !see(at, at)) continue; before = at;
      label(at, moments[i].toLocaleString("en") + " ms", "row " + (i + first));
    }
    for (const [i, pause] of breaks) { const at = x(places_of[i] - 500); if (see(at, at)) out.push(`<text class="small" x="${at}" y="${TOP - 4}" text-anchor="middle">≀ ${(pause / 1000).toLocaleString("en")} s ≀</text>`); }
  }
  // the bars and the logs; their labels stand over the arrows
  const names = [];
  const peak = Math.max(1, ...lanes.flatMap(l => l.logs.map(g => g[1])));
  const begun = new Set(facts.marks.filter(m => ["open", "stop", "fault"].includes(m[2])).map(m => `${m[0]} ${m[1]}`));
  for (const i of shown_lanes()) {
    const lane = lanes[i];
    if (lane.kind === "outside" || lane.kind === "heard") { out.push(`<line class="line" x1="${LEFT}" x2="${w}" y1="${middle(i)}" y2="${middle(i)}"/>`); continue; }
    const tall = lane.kind === "member" ? BAR : 15;
    lane.spans.forEach(([r, what, term], n) => {
      const until = n + 1 < lane.spans.length ? lane.spans[n + 1][0] : last + 1, a = Math.max(x(edge(r)), LEFT), b = Math.min(x(edge(until)), w);
      if (b < LEFT || a > w) return;
      const words = `${lane.name}, rows ${r} to ${until - 1}: ${role_words(what)}` + ("FCL".includes(what) ? `, term ${term}` : what === "hold" ? ` (${term})` : "");
      out.push(`<rect class="${what}" x="${a}" y="${y[i] + (tall === 15 ? 2 : 0)}" width="${Math.max(.6, b - a)}" height="${tall}"><title>${esc(words)}</title></rect>`);
      const labels = "FCL".includes(what) ? [`${role_words(what)}, term ${term}`, `${what} ${term}`] : what === "hold" ? [`holds ${term}`] :
        [{stopped: "stopped", failed: "failed", wait: "waits", never: lane.kind === "member" ? "not opened" : "not there", gone: ""}[what]];
      const beside = what === "hold" ? 40 : begun.has(`${r} ${i}`) ? 12 : 4; // what a mark at its start leaves free
      const label = labels.find(one => b - a > 7 * one.length + beside);
      if (label) names.push(`<text class="${what === "stopped" || what === "failed" ? "dark" : "in"}" x="${a + beside}" y="${y[i] + (tall === 15 ? 13 : 17)}">${label}</text>`);
    });
    if (lane.kind !== "member") continue;
    const base = y[i] + BAR + GRAPH - 3, value = v => base - (GRAPH - 6) * v / peak;
    for (const [which, name] of [[1, "last"], [2, "committed"]]) {
      let path = "", was = null;
      lane.logs.concat([[last + 1, ...lane.logs[lane.logs.length - 1].slice(1)]]).forEach(g => {
        const at = Math.min(Math.max(x(edge(g[0])), LEFT), w);
        if (was !== null) path += `L${at} ${value(was)}`;
        path += `${path ? "L" : "M"}${at} ${value(g[which])}`; was = g[which];
      });
      out.push(`<path class="${name}" d="${path}"><title>${lane.name}: ${name === "last" ? "entries of the log" : "committed entries"}</title></path>`);
    }
  }
  // the arrows, each pixel once
  const seen = new Set(), every = $("all").checked;
  for (const [a, b, from, to, kind, how, k] of facts.arrows) {
    if (how === "changed" ? false : how === "dropped" || how === "bad" ? !$("dropped").checked : !every) continue;
    if (y[to] === undefined) continue;
    const xa = x(place(a)), xb = x(place(b)); if (!see(xa, xb)) continue;
    const key = `${Math.round(xa)} ${Math.round(xb)} ${from} ${to} ${kind} ${how}`; if (seen.has(key)) continue; seen.add(key);
    const ya = rim(from, middle(to)), yb = rim(to, ya);
    out.push(`<g class="${kind} ${how}"><line class="arrow ${kind} ${how}" x1="${xa}" y1="${ya}" x2="${xb}" y2="${yb}"><title>${esc(`frame ${k}, row ${a} to row ${b}, ${how}: ${frame_words(k)}`)}</title></line>` +
      (how === "dropped" || how === "bad" ? `<path class="${how}" style="stroke-dasharray:none" d="M${xb - 3} ${yb - 3}l6 6m0 -6l-6 6"/>` : how === "part" || how === "unwanted" ? "" : `<path class="tip ${kind}" d="M${xb} ${yb}l-3 ${yb > ya ? -6 : 6}h6z" opacity="${how === "took" ? .4 : 1}"/>`) + "</g>");
  }
  if ($("lost").checked) for (const [r, from, to, kind, k] of facts.lost) {
    const at = x(place(r)); if (!see(at, at) || y[to] === undefined) continue;
    const key = `${Math.round(at)} ${from} ${to} lost`; if (seen.has(key)) continue; seen.add(key);
    const ya = rim(from, middle(to)), end = ya + (middle(to) > ya ? 11 : -11);
    out.push(`<g class="lost"><line class="lost" x1="${at}" y1="${ya}" x2="${at + 3}" y2="${end}"/><circle class="lost" cx="${at + 3}" cy="${end}" r="2.6"><title>${esc(`frame ${k} of row ${r} was never given to ${lanes[to].name}: ${frame_words(k)}`)}</title></circle></g>`);
  }
  out.push(...names);
  // the marks
  const labels = labels_of_ids(r => x(place(r)), y, w);
  for (const mark of facts.marks) {
    const [r, i, what, text] = mark;
    if (y[i] === undefined) continue;
    const at = x(place(r)); if (!see(at, at)) continue;
    const top = y[i], low = lanes[i].kind === "member" ? 19 : 14, title = `<title>${esc(`row ${r}: ${says(r)}`)}</title>`;
    if (what === "stop") out.push(`<text class="stopmark" x="${at}" y="${top + low}" text-anchor="middle" style="font-size:17px">✖${title}</text>`);
    else if (what === "fault") out.push(`<text class="faultmark" x="${at}" y="${top + low}" text-anchor="middle" style="font-size:15px">⚡${title}</text>`);
    else if (what === "armed") out.push(`<text class="faultmark" x="${at}" y="${top - 1}" text-anchor="middle">▾${title}</text>`);
    else if (what === "open") out.push(`<text x="${at}" y="${top + low - 1}" text-anchor="middle">▶${title}</text>`);
    else if (what === "full") out.push(`<rect class="failed" x="${at - 1.5}" y="${top + BAR}" width="3" height="6">${title}</rect>`);
    else if (what === "told" || what === "hold") {
      const high = lanes[i].kind === "member" ? top - 12 : top;
      out.push(`<path class="told" d="M${at} ${high - 1}l7 9l-7 9l-7 -9z">${title}</path>`);
      if (labels.has(mark)) out.push(`<text class="toldtext" ${labels.get(mark)[0]} y="${high + 7}">${esc(labels.get(mark)[1])}</text>`);
    } else if (what === "commit") out.push(`<circle class="dot" cx="${at}" cy="${top + BAR + GRAPH - 3 - (GRAPH - 6) * text / peak}" r="3">${title}</circle>`);
  }
  // the names stand over what is below the left edge
  out.push(`<rect class="side" x="0" y="0" width="${LEFT - 2}" height="${bottom}"/>`);
  for (const i of shown_lanes()) {
    const lane = lanes[i], device = lane.kind === "device" || lane.kind === "heard";
    out.push(`<text class="${device ? "small" : "name"}" x="6" y="${y[i] + (lane.kind === "member" ? 17 : 13)}">${esc(short_name(lane))}<title>${esc(device ? "the device " + lane.name : lane.name)}</title></text>`);
    if (lane.kind === "member") out.push(`<text class="small" x="6" y="${y[i] + BAR + 15}">log: 0 to ${peak}${w < NARROW ? "" : " entries"}</text>`);
  }
  const now = x(place(current));
  if (now >= LEFT) out.push(`<line class="now" id="now" x1="${now}" x2="${now}" y1="${TOP - 10}" y2="${bottom}"/>`);
  const svg = $("picture");
  svg.setAttribute("width", whole ? "100%" : w);
  if (whole) svg.removeAttribute("height"); else svg.setAttribute("height", bottom + 4);
  svg.setAttribute("viewBox", `0 0 ${w} ${bottom + 4}`);
  svg.innerHTML = out.join("");
  $("long").style.width = whole ? "100%" : Math.max(w, LEFT + end_of_axis * scale + RIGHT) + "px";
}
function zoom(by) {
  const centre = place(current); fitted = by === 0;
  if (fitted) fit(); else scale = Math.min(Math.max(scale * by, room() / end_of_axis), axis === "row" ? 40 : 4);
  $("long").style.width = left(width()) + end_of_axis * scale + RIGHT + "px";
  $("strip").scrollLeft = centre * scale - room() / 2; draw();
}

// --- the row that is looked at
function show(r, bring) {
  current = Math.max(first, Math.min(last, Math.round(+r) || first));
  if (!count) { draw(); $("state_head").textContent = "No row was taken"; return; }
  $("slide").value = current; $("row").value = current;
  if (bring) {
    const begin = left(width()), at = begin + place(current) * scale, strip = $("strip");
    if (at < strip.scrollLeft + begin + 30 || at > strip.scrollLeft + width() - 40) strip.scrollLeft = at - width() / 2;
  }
  draw();
  $("state_head").textContent = `After row ${current.toLocaleString("en")}, at ${moments[current - first].toLocaleString("en")} ms`;
  let text = '<table><tr><th>lane<th>role<th>term<th>entries<th>committed<th>waits to be sent<th>its moment<th>knows</tr>';
  for (const lane of lanes) {
    if (lane.kind !== "member" && lane.kind !== "device") continue;
    const [, what, term, entries, commit, queued, moment, known] = state_at(lane, current), is_device = lane.kind === "device";
    const cells = [is_device ? (term ? "ID " + term : "") : term, is_device ? "" : entries, is_device ? "" : commit, queued,
      what === "never" || what === "stopped" || what === "gone" ? "" : moment.toLocaleString("en") + " ms"];
    text += `<tr><td title="${esc(lane.name)}">${esc(short_name(lane))}<td class="${what}">${esc(role_words(what))}` +
      cells.map(cell => `<td class="n">${cell}`).join("") + `<td>${esc(known)}</tr>`;
  }
  $("state").innerHTML = text + "</table>";
  text = "<table><tr><th>row<th>moment<th>schedule<th>report<th>in words</tr>";
  const from = Math.max(first, Math.min(current - 6, last - 12)), to = Math.min(last, from + 12);
  for (let i = from; i <= to; i++)
    text += `<tr${i === current ? ' class="now" aria-current="true"' : ""}><td class="n"><a href="#${i}">${i}</a><td class="n">${moments[i - first].toLocaleString("en")}<td>${esc(rows[i - first])}<td>${esc(lines[i - first])}<td>${esc(says(i))}</tr>`;
  if (to === last && last === facts.total && facts.end !== "whole") text += `<tr class="refused"><td colspan="5">${coded(facts.end_words)}</tr>`;
  $("near").innerHTML = text + "</table>";
  picture.moved(current);
}
function event_from(r, by) {
  const list = facts.events;
  if (by > 0) return list.find(e => e > r) ?? last;
  for (let i = list.length - 1; i >= 0; i--) if (list[i] < r) return list[i];
  return first;
}

// --- the parts that stay
function legend() {
  const duties = {F: ", hears a leader", C: ", asks to lead", L: ", gives node IDs"};
  const bar = what => `<span><svg width="14" height="11"><rect class="${what}" width="14" height="11"/></svg>${role_words(what)}${duties[what] || ""}</span>`;
  const arrow = (kind, words) => `<span><svg width="22" height="11"><line class="arrow ${kind}" x1="0" x2="22" y1="6" y2="6"/></svg>${words}</span>`;
  $("legend").innerHTML = ["F", "C", "L", "stopped", "failed"].map(bar).join("") + arrow("disc", "discovery") + arrow("vote", "votes") + arrow("app", "append") +
    arrow("alloc", "allocation") + arrow("info", "who are you") + arrow("stat", "status") + arrow("dropped", "dropped by its receiver") +
    '<span><svg width="11" height="11"><circle class="lost" cx="5.5" cy="5.5" r="3"/></svg>never came</span>' +
    '<span>▶ opens</span><span>✖ stops</span><span>⚡ its disk failed</span><span>▾ will fail later</span><span>◆ a node ID is told</span><span>● commits</span>';
}
function places() {
  const told = facts.marks.filter(m => m[2] === "told" && lanes[m[1]].kind === "member"), blank = facts.places.some(place => !place[1]);
  let text = "";
  if (told.length) text += "<h2>Node IDs that were told</h2><p>" + told.map(m => `<a href="#${m[0]}">row ${m[0]}</a>: ${esc(says(m[0]))}`).join("<br>") + "</p>";
  if (facts.places.length) text += "<h2>The committed logs at the end</h2><div class='wide'><table><tr><th>place<th>node ID<th>unique ID<th>committed by</tr>" +
    facts.places.map(([at, node, uid, who]) => `<tr><td class="n">${at}<td class="n">${node || ""}<td><code>${node ? /^0+$/.test(uid) ? "none: the node ID is kept back" : uid : "a blank"}</code><td>${who.join(", ")}</tr>`).join("") + "</table></div>" +
    (blank ? "<p class='soft'>A blank is an entry without a node ID: a leader begins its term with one where entries of earlier terms wait.</p>" : "");
  $("places").innerHTML = text;
}
function story() {
  const {main, left} = Story.events(facts);
  $("outcome").textContent = Story.outcome(facts);
  $("story").innerHTML = main.map(([row, words]) => `<li><a href="#${row}">${moments[row - first].toLocaleString("en")} ms</a> ${coded(words)}`).join("") +
    (left ? `<li class="soft">and ${left} more, in the picture` : "");
  for (const id of ["tools", "strip", "legend", "move"]) $(id).hidden = !count;
}
$("slide").oninput = () => show($("slide").value, true);
$("row").onchange = () => show($("row").value, true);
$("back").onclick = () => show(event_from(current, -1), true);
$("on").onclick = () => show(event_from(current, 1), true);
$("one_back").onclick = () => show(current - 1, true);
$("one_on").onclick = () => show(current + 1, true);
$("less").onclick = () => zoom(.5); $("more").onclick = () => zoom(2); $("fit").onclick = () => zoom(0);
$("axis").onchange = () => { axis = $("axis").value; set_axis(); zoom(0); };
for (const id of ["all", "dropped", "lost", "devices"]) $(id).onchange = () => draw();
$("picture").onclick = e => {
  const box = $("picture").getBoundingClientRect(), at = (e.clientX - box.left + drawn.scroll - left(width())) / scale;
  let low = 0, high = count - 1;
  while (low < high) { const middle = (low + high) >> 1; if (places_of[middle] < at - (axis === "row" ? .5 : 0)) low = middle + 1; else high = middle; }
  show(first + low);
};
let waits = false;
$("strip").onscroll = () => { if (!waits) { waits = true; requestAnimationFrame(() => { waits = false; draw(); }); } };
for (const id of ["near", "places", "story"]) $(id).onclick = e => {
  const link = e.target.closest("a");
  if (link) { e.preventDefault(); show(link.hash.slice(1), true); }
};
new ResizeObserver(() => { if (facts) { if (fitted) fit(); draw(); } }).observe($("strip"));
window.addEventListener("beforeprint", () => { if (facts) draw(true); });
window.addEventListener("afterprint", () => { if (facts) { if (fitted) fit(); else scale = Math.max(scale, room() / end_of_axis); draw(); } });
const keys = {n: "on", p: "back", "+": "more", "=": "more", "-": "less", 0: "fit"}, boxes = {a: "all", d: "dropped", l: "lost"};
const is_typed_into = at => ["SELECT", "TEXTAREA"].includes(at.tagName) || (at.tagName === "INPUT" && !["checkbox", "range"].includes(at.type));
document.addEventListener("keydown", e => {
  if (!facts || e.ctrlKey || e.altKey || e.metaKey || e.defaultPrevented || is_typed_into(e.target)) return;
  const step = e.shiftKey ? 10 : 1;
  if (e.key === "ArrowRight") show(current + step, true);
  else if (e.key === "ArrowLeft") show(current - step, true);
  else if (e.key === "Home") show(first, true);
  else if (e.key === "End") show(last, true);
  else if (keys[e.key]) $(keys[e.key]).click();
  else if (boxes[e.key]) $(boxes[e.key]).click();
  else if (e.key === "t") { $("axis").value = axis === "row" ? "time" : "row"; $("axis").onchange(); }
  else return;
  e.preventDefault();
});

// --- what the page calls
const picture = {
  /* Draws these facts, at this row. */
  open(given, row) {
    facts = given; ({first, last, lanes, rows, lines, moments} = given); count = rows.length;
    outside_used = facts.arrows.some(a => a[2] === 0) || facts.lost.some(a => a[1] === 0) || rows.some(r => r.startsWith("ext"));
    $("slide").min = $("row").min = first; $("slide").max = $("row").max = last;
    $("picture").setAttribute("aria-label", $("summary").textContent);
    if (lanes.filter(l => l.kind === "device" || l.kind === "heard").length > 16) $("devices").checked = false;
    story(); legend(); places(); set_axis(); if (fitted) fit(); else scale = Math.max(scale, room() / end_of_axis);
    show(row || (facts.end === "whole" ? first : last), true); // (a run that was refused is seen where that was)
  },
  show,
  draw,
  /* Is called with the row that is looked at, whenever it was chosen. */
  moved() {},
  get facts() { return facts; },
  get row() { return current; },
  get axis() { return axis; },
};
return picture;
})();
