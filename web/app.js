"use strict";
/* The page that runs the program: what is given to it, what it answers, and the picture of a run. Not proved. */
const Page = (() => {
const $ = id => document.getElementById(id);
const MOST_DRAWN = 16000; // rows of a picture, as of tools/view
const MOST_SHOWN = 400000; // bytes of an input or a report in the page
const MOST_LIVE = 200000; // bytes of an input that runs while it is edited
const MOST_IN_LINK = 100000; // characters
const LINE = 19; // px, as in app.css
const PAUSE = 250; // ms after a key
const FIRST = "three_lose_their_leader";
const FIRST_ROW = 122; // its leader stops

/* What is tried with the first example: a row of it, what becomes of it (nothing: it is taken out), and what for. */
const TRIES = [
  ["crash 1 0 old", "", "the leader is not stopped", "Member 1 goes on as leader of term 1 while member 2 leads term 2: two leaders at one moment, and still one story. Nobody hears member 1 any more, so it commits nothing more."],
  ["aopen 1 000102030405060708090a0b0c0d0e0f 0 2100 0", "aopen 1 000102030405060708090a0b0c0d0e0f 42 2100 0", "the first device would like node ID 42", "It is told 42, and so the second device gets 125."],
  ["aopen 2 f0e0d0c0b0a090807060504030201000 0 6100 0", "aopen 2 f0e0d0c0b0a090807060504030201000 125 6100 0", "the second device would like 125 too", "Member 2 has the entry of the leader before it. The device is told 124."],
  ["rx 3 52 6004", "", "a frame of the vote request is lost", "Member 3 never has the request whole, and answers nothing: the row in which it would send its vote is refused."],
];

const text_of = bytes => {
  const parts = [];
  for (let at = 0; at < bytes.length; at += 8192) parts.push(String.fromCharCode(...bytes.subarray(at, at + 8192)));
  return parts.join("");
};
const bytes_of = text => Uint8Array.from(text, letter => letter.charCodeAt(0) & 255);
const counted = (count, one, many = `${one}s`) => `${count.toLocaleString("en")} ${count === 1 ? one : many}`;
const element = (name, words = {}, ...inside) => {
  const made = Object.assign(document.createElement(name), words);
  made.append(...inside);
  return made;
};

// --- what the page has in itself, packed

async function unpacked(id) {
  const packed = Uint8Array.from(atob($(id).textContent.trim()), letter => letter.charCodeAt(0));
  const stream = new Blob([packed]).stream().pipeThrough(new DecompressionStream("gzip"));
  return new Uint8Array(await new Response(stream).arrayBuffer());
}
const ready = (async () => ({
  module: await WebAssembly.compile(await unpacked("program")),
  examples: JSON.parse(text_of(await unpacked("given_examples"))),
}))();

// --- running the program, in a worker where there is one, so that the page can be used meanwhile

const runner = (() => {
  let worker = null, address = null;
  const WORKER = "onmessage = async ({data}) => { try { postMessage(await runAllocator(...data)); } catch (error) { postMessage({failed: String(error)}); } };";
  function start() {
    address ??= URL.createObjectURL(new Blob([$("host").textContent, WORKER], {type: "text/javascript"}));
    return new Worker(address);
  }
  return async (module, words, input, files) => {
    if (worker?.is_busy) worker.terminate(), worker = null;
    try { worker ??= start(); } catch { return runAllocator(module, words, input, files); }
    const mine = worker;
    mine.is_busy = true;
    return new Promise((done, failed) => {
      mine.onmessage = ({data}) => { mine.is_busy = false; data.failed ? failed(new Error(data.failed)) : done(data); };
      mine.onerror = event => { event.preventDefault(); worker = null; runAllocator(module, words, input, files).then(done, failed); };
      mine.postMessage([module, words, input, files]);
    });
  };
})();

async function sha256(bytes) {
  if (!globalThis.crypto?.subtle) return "";
  const sum = new Uint8Array(await crypto.subtle.digest("SHA-256", bytes));
  return [...sum].map(byte => byte.toString(16).padStart(2, "0")).join("");
}

// --- the modes

const FORMATS = ["candump", "slcan"];
const LINES = {name: "lines", about: "lines, at most", value: "1000000"};
const MODES = {
  replay: {
    label: "Replay", input: "Schedule", unit: "row",
    hint: "What happened, a row for each event. Edit it: the answer follows. A click goes to the row in the picture.",
    ranges: "1 to 1,000,000 rows, and 1 to 5 different members with node IDs of 1 to 125",
    fields: [{name: "rows", about: "rows, at most", value: "100000"}, {name: "ids", about: "members", value: "1 2 3"}],
  },
  soak: {
    label: "Soak", input: "Stops, losses and repeats by chance",
    hint: "A cluster runs under stops, losses and repeats that are drawn from the seed. The same words always give the same report.",
    ranges: "a seed below 2^64, 0 to 20,000 rounds, and 1 to 5 members",
    fields: [{name: "seed", about: "seed", value: "1"}, {name: "rounds", about: "rounds of 50 ms", value: "2000"}, {name: "size", about: "members", value: "3"}],
  },
  watch: {
    label: "Watch", input: "Log", unit: "line",
    hint: "A log of candump -L, or of a serial adapter (slcan): what was said on the bus, transfer by transfer. A click on a line of the report goes to its line of the log.",
    ranges: "1 to 1,000,000 lines, and at most 5 different node IDs of 1 to 125",
    fields: [{name: "format", about: "form", options: FORMATS}, LINES, {name: "ids", about: "services of", value: "1 2 3"}],
  },
  convert: {
    label: "Convert", input: "Log", unit: "line",
    hint: "A log in one form is written in the other.",
    ranges: "1 to 1,000,000 lines",
    fields: [{name: "from", about: "from", options: FORMATS}, {name: "to", about: "to", options: [...FORMATS].reverse()}, LINES],
  },
  decode: {
    label: "Decode", input: "Definitions of data types", unit: "line",
    hint: "A payload is read by the definition of its data type.",
    ranges: "a name of letters, digits and _ with at most 40 bytes, the part 1 or 2, and 2 to 752 hexadecimal digits, or - for none",
    fields: [{name: "name", about: "type", value: "Allocation"}, {name: "part", about: "part", value: "1"}, {name: "hex", about: "payload, hex", is_long: true, value: "fa00112233445566778899aabbccddee01"}],
  },
  audit: {
    label: "Audit", input: "Stores",
    hint: "Open or drop copies of the members' stores, alloc-1.store and so on: what they agree on, or where they differ.",
    ranges: "1 to 5 different node IDs of 1 to 125",
    fields: [{name: "ids", about: "members", value: "1 2 3"}],
  },
};
// make_texts: rows_of_editor
const ROWS = [
  ["open n ms word", "member n starts at a moment; the word draws its wait for an election"],
  ["copen n ms word", "the same, and it is told who the members are: those of the words, in their order"],
  ["tick n ms word", "member n reads its clock, with a random word"],
  ["send n", "member n puts the next frame of its queue on the bus"],
  ["rx n k ms", "member n receives frame k at a moment"],
  ["ext id data", "a frame from outside is put on the bus"],
  ["crash n calls pattern", "member n stops now (0 calls), or in place of the call with that number, counted from now, of its disk"],
  ["fault n call", "the call with that number, counted from now, of the disk of member n fails once"],
  ["aopen a uid pref ms word", "device a comes to the bus, with its unique ID, the node ID that it prefers, and a random word"],
  ["atick a ms word", "device a reads its clock, with a random word"],
  ["arx a k ms word", "device a receives frame k, with a random word"],
  ["asend a", "device a puts the next frame of its queue on the bus"],
  ["aend a", "device a leaves the bus"],
];
// make_texts ends

// --- what is given: the mode, its words, the bytes of its input, the stores

const state = {mode: "replay", bytes: new Uint8Array(), files: {}, example: "", is_edited: false, row: 0, first: 1};
const input_of = mode => MODES[mode].unit !== undefined;
const is_cr = () => state.mode === "watch" && field("format") === "slcan" || state.mode === "convert" && field("from") === "slcan";
const field = name => $("field_" + name)?.value.trim() ?? "";
const words = () => [state.mode, ...MODES[state.mode].fields.flatMap(one => field(one.name).split(/\s+/))].filter(word => word);

/* Text areas have line feeds alone; the lines of an SLCAN log end with carriage returns. */
function shown_input() {
  const text = text_of(state.bytes.subarray(0, MOST_SHOWN));
  return is_cr() ? text.replace(/\r/g, "\n") : text;
}
function edited_input() {
  let text = $("input").value;
  if (text && !text.endsWith("\n")) text += "\n";
  return bytes_of(is_cr() ? text.replace(/\n/g, "\r") : text);
}

function set_mode(mode, values = []) {
  state.mode = mode;
  const about = MODES[mode];
  for (const one of $("modes").querySelectorAll("input")) one.checked = one.value === mode;
  $("given_head").textContent = about.input;
  $("hint").textContent = about.hint;
  $("fields").replaceChildren(...about.fields.map((one, at) => {
    const id = "field_" + one.name, value = at + 1 < about.fields.length ? values[at] : values.slice(at).join(" ");
    const made = one.options
      ? element("select", {id}, ...one.options.map(option => new Option(option, option)))
      : element("input", {id, type: "text", spellcheck: false});
    made.value = values.length ? value : one.value ?? one.options[0];
    made.oninput = () => { if (one.options) show_input(); later(); };
    return element("label", {className: one.is_long ? "long" : ""}, one.about, made);
  }));
  document.querySelector("main").classList.toggle("even", mode !== "replay");
  document.body.classList.toggle("plain", mode !== "replay");
  $("words_of_rows").hidden = mode !== "replay";
  $("editor").hidden = $("save_input").hidden = !input_of(mode);
  $("stores").hidden = mode !== "audit";
  $("open").hidden = mode === "soak";
}

function show_input() {
  const is_whole = state.bytes.length <= MOST_SHOWN;
  $("input").value = input_of(state.mode) ? shown_input() : "";
  $("input").readOnly = !is_whole;
  $("stores").replaceChildren(...Object.entries(state.files).map(([name, bytes]) => element("li", {}, element("code", {textContent: name}), element("span", {className: "soft", textContent: counted(bytes.length, "byte")}))));
  if (!$("stores").children.length) $("stores").append(element("li", {className: "soft", textContent: "No store is here yet."}));
  say_size();
  editor.draw();
}
function say_size() {
  const unit = MODES[state.mode].unit, count = state.bytes.reduce((sum, byte) => sum + (byte === 10 || byte === 13 && is_cr()), 0);
  const cut = state.bytes.length > MOST_SHOWN ? `; the first ${MOST_SHOWN.toLocaleString("en")} of ${counted(state.bytes.length, "byte")} are shown` : "";
  $("size").textContent = unit ? counted(count, unit) + cut : "";
}

// --- lines with numbers and marks behind them

class Lines {
  constructor(box) {
    this.area = box.querySelector("textarea");
    this.gutter = box.querySelector(".gutter");
    this.layer = box.querySelector(".marks");
    this.marks = {};
    this.count = 1;
    this.area.addEventListener("scroll", () => this.scrolled());
    new ResizeObserver(() => this.scrolled()).observe(this.area);
  }
  draw() {
    const text = this.area.value;
    this.count = 1;
    for (let at = text.indexOf("\n"); at >= 0 && at + 1 < text.length; at = text.indexOf("\n", at + 1)) this.count++;
    this.scrolled();
  }
  scrolled() {
    const {scrollTop, clientHeight} = this.area, first = Math.floor(scrollTop / LINE);
    const last = Math.min(this.count, first + Math.ceil(clientHeight / LINE) + 1), numbers = [];
    for (let at = first + 1; at <= last; at++) numbers.push(at);
    if (this.gutter) {
      this.gutter.replaceChildren(element("div", {textContent: numbers.join("\n")}));
      this.gutter.firstChild.style.cssText = `top:${first * LINE - scrollTop}px;min-width:${String(this.count).length}ch`;
    }
    this.layer.replaceChildren(...Object.entries(this.marks).filter(([, row]) => row).map(([what, row]) => {
      const mark = element("div", {className: what});
      mark.style.top = `${(row - 1) * LINE - scrollTop}px`;
      return mark;
    }));
  }
  /* Marks this line, and brings it into view. */
  mark(what, row, is_brought = true) {
    this.marks[what] = row;
    const {scrollTop, clientHeight} = this.area, top = (row - 1) * LINE;
    if (is_brought && row && (top < scrollTop || top + 2 * LINE > scrollTop + clientHeight)) this.area.scrollTop = top - clientHeight / 3;
    this.scrolled();
  }
  row() {
    return this.area.value.slice(0, this.area.selectionStart).split("\n").length;
  }
  select(row) {
    const rows = this.area.value.split("\n"), at = rows.slice(0, row - 1).reduce((sum, one) => sum + one.length + 1, 0);
    this.area.focus({preventScroll: true});
    this.area.setSelectionRange(at, at + (rows[row - 1] ?? "").length);
  }
}
const editor = new Lines($("editor")), report = new Lines($("report_lines"));

// --- what the answer means, in words

/* The sentence on how a run ended, the row that it is about, and whether all went well. */
function meaning(status, text) {
  const mode = state.mode, lines = text.split(/[\n\r]/).filter(line => line), last = (lines[lines.length - 1] ?? "").split(" "), row = Number(last[last.length - 1]);
  const count = Number(last[1]);
  const is_of_row = [3, 4, 8].includes(status), said = Facts.meaning(status, mode, last.join(" "));
  switch (status) {
    case 0: return {is_good: true, words: done(mode, lines, count)};
    case 2: return {words: `These are no words that the program reads. It takes ${MODES[mode].ranges}.`};
    case 4: return {row: count, cause: row, words: `Row ${count.toLocaleString("en")}, \`${row_text(count)}\`, is refused: ${Facts.refusal(row, row_text(count))} (cause ${row}). All rows before it were taken.`};
    case 7: return {words: "There is not enough memory for so many rows: lower their number."};
    case 12: return {words: missing_store()};
    default: return {row: is_of_row ? row : undefined, words: said ? `${said[0].toUpperCase()}${said.slice(1)}.` : "The program ended in another way than it should."};
  }
}
const row_text = row => text_of(state.bytes).split("\n")[row - 1];
function done(mode, lines, count) {
  const of = name => Number(lines.find(line => line.startsWith(name + " "))?.split(" ")[1]);
  if (mode === "replay") return `All ${counted(count, "row")} were taken.`;
  if (mode === "soak") return `All ${counted(count, "round")} are over: ${counted(of("frames"), "frame")}, ${counted(of("stops"), "stop")}, and ${counted(of("pairs"), "device")} with a node ID.`;
  if (mode === "watch") return `All ${counted(count, "line")} were read: ${counted(lines.length - 1, "transfer")}.`;
  if (mode === "convert") return `All lines were read, and ${counted(lines.length, "line")} written.`;
  if (mode === "decode") return `The payload has ${counted(count, "number")}.`;
  return `The stores agree, on ${counted(count, "entry", "entries")}.`;
}
function missing_store() {
  for (const id of field("ids").split(/\s+/)) {
    const name = `alloc-${id}.store`, bytes = state.files[name];
    if (!bytes) return `${name} is not here: open or drop it, or take ${id} out of the members.`;
    if (bytes.length !== Facts.STORE_BYTES) return `${name} has ${counted(bytes.length, "byte")} in place of ${Facts.STORE_BYTES.toLocaleString("en")}.`;
  }
  return "A store was not opened.";
}

/* The schedule without this row, and without what speaks of its frame. */
function without_row(rows, row) {
  const puts = text => /^(send|asend|ext) /.test(text);
  const left = rows.filter((_, at) => at + 1 !== row);
  if (!puts(rows[row - 1])) return left;
  const number = rows.slice(0, row).filter(puts).length;
  return left.flatMap(text => {
    const word = text.split(" "), frame = Number(word[2]);
    if (word[0] !== "rx" && word[0] !== "arx" || frame < number) return [text];
    if (frame === number) return [];
    return [[word[0], word[1], frame - 1, ...word.slice(3)].join(" ")];
  });
}
/* Whether a row is refused for what went before it, so that it cannot happen once that is another. */
const cannot_happen = cause => Facts.REFUSALS[cause]?.[1] === "before";

/* Takes rows out until none is refused for such a cause. */
async function leave_out() {
  const {module} = await ready, rows = shown_input().trimEnd().split("\n"), before = rows.length, given = words();
  let left = rows, answer;
  is_busy = true;
  say({words: "Leaving out what cannot happen any more …"});
  for (;;) {
    answer = await runner(module, given, bytes_of(left.join("\n") + "\n"), {});
    const [name, row, cause] = text_of(answer.output).trimEnd().split("\n").pop().split(" ");
    if (answer.status !== 4 || name !== "unlawful" || !cannot_happen(cause)) break;
    left = without_row(left, Number(row));
  }
  edit(left);
  await go(`${counted(before - left.length, "row")} that could not happen any more ${before - left.length === 1 ? "was" : "were"} left out. `);
}

// --- running, and showing what came of it

let turn = 0, timer = 0, is_busy = true, answer = {status: 0, output: new Uint8Array()};
/* Says a sentence; with an exit code it is that on how a run ended. */
function say({words, row, cause, is_good}, code, front = "") {
  const is_waiting = is_good === undefined && code === undefined;
  $("verdict").className = "verdict" + (is_waiting ? "" : is_good ? " good" : " bad");
  const parts = words.split(/(`[^`]*`)/).map(part => part.startsWith("`") ? element("code", {textContent: part.slice(1, -1)}) : part);
  $("status").replaceChildren(front, ...parts, ...(code === undefined ? [] : [" ", element("span", {className: "soft", textContent: `Exit code ${code}.`})]));
  const offers = [];
  if (row && input_of(state.mode) && state.bytes.length <= MOST_SHOWN) {
    offers.push(element("button", {type: "button", textContent: `Go to ${MODES[state.mode].unit} ${row}`, onclick: () => { editor.mark("bad", row); editor.select(row); }}));
  }
  if (cannot_happen(cause)) {
    offers.push(element("button", {type: "button", textContent: "Leave out what cannot happen any more", onclick: leave_out}));
  }
  $("offers").replaceChildren(...offers);
  editor.mark("bad", row ?? 0);
}

function refuse(words) {
  is_busy = false;
  say({words, is_good: false});
}

async function go(front = "") {
  clearTimeout(timer);
  is_busy = true;
  const mine = ++turn, waits = setTimeout(() => { if (mine === turn) say({words: "Running …"}); }, 300);
  try {
    const {module} = await ready, given = words(), begun = performance.now();
    const made = await runner(module, given, input_of(state.mode) ? state.bytes : new Uint8Array(), state.files);
    clearTimeout(waits);
    if (mine !== turn) return;
    answer = made;
    const took = performance.now() - begun, text = text_of(answer.output.subarray(-4096));
    show_report();
    draw_run();
    say(meaning(answer.status, state.mode === "replay" || answer.output.length <= 4096 ? text : text_of(answer.output)), answer.status, front);
    const to = {replay: " < schedule", watch: " < log", convert: " < log", decode: " < text"}[state.mode] ?? "";
    $("command").replaceChildren("as ", element("code", {textContent: `./allocator ${given.join(" ")}${to}`}), ` (${took < 10 ? took.toFixed(1) : Math.round(took)} ms)`);
    $("sum").replaceChildren("SHA-256 ", element("code", {textContent: await sha256(answer.output) || "not offered by this browser here"}));
  } catch (error) {
    if (mine === turn) refuse(`The program did not come to its end: ${error.message ?? error}`);
  } finally {
    clearTimeout(waits);
    if (mine === turn) is_busy = false;
  }
}
function later() {
  note_edit();
  clearTimeout(timer);
  is_busy = state.bytes.length <= MOST_LIVE;
  if (is_busy) timer = setTimeout(go, PAUSE);
  else say({words: "Press Ctrl and Enter to run it: so much does not run while it is edited."});
}

function show_report() {
  const {output} = answer, is_whole = output.length <= MOST_SHOWN;
  $("report").value = text_of(output.subarray(0, MOST_SHOWN)).replace(/\r/g, "\n");
  $("cut").textContent = is_whole ? "" : `the first ${MOST_SHOWN.toLocaleString("en")} of ${counted(output.length, "byte")}; the file that is saved has all`;
  report.draw();
}

function draw_run() {
  $("run").hidden = true;
  if (state.mode !== "replay" || !answer.output.length) return;
  const run = new Facts.Run(text_of(state.bytes), text_of(answer.output)), total = run.rows.length;
  if (!total) return;
  state.first = Math.min(state.first, Math.max(1, total - MOST_DRAWN + 1));
  const last = Math.min(total, state.first + MOST_DRAWN - 1);
  $("part").hidden = total <= MOST_DRAWN;
  Object.assign($("part_first"), {value: state.first, max: total});
  $("part_last").textContent = `${last.toLocaleString("en")} of ${total.toLocaleString("en")}`;
  $("summary").textContent = Facts.summary(run);
  $("run").hidden = false;
  Picture.open(Facts.facts(run, "", state.first, last), Math.min(state.row, last));
}
Picture.moved = row => {
  state.row = row;
  const is_edited_now = document.activeElement === $("input");
  editor.mark("now", row, !is_edited_now);
  report.mark("now", row, document.activeElement !== $("report"));
};

// --- examples, files and links

function take({mode, values, bytes, files = {}, example = "", row = 0}) {
  Object.assign(state, {bytes, files, example, row, first: 1});
  editor.marks = {};
  report.marks = {};
  set_mode(mode, values);
  show_input();
  $("examples").value = example;
  note_edit(false);
  return go();
}

async function take_example(name, row = 0) {
  const {examples} = await ready, given = examples[name];
  if (!given) return refuse(`The page has no example \`${name}\`.`);
  const [mode, ...values] = given.words.split(" ");
  return take({mode, values, bytes: bytes_of(given.input ?? ""), files: given_files(given), example: name, row});
}

/* Says which example this is, and whether it was edited. */
async function note_edit(is_edited = true) {
  state.is_edited = is_edited;
  const given = (await ready).examples[state.example];
  $("lesson").hidden = !given;
  if (!given) return;
  $("about").replaceChildren(element("b", {textContent: state.example}), ...(given.about ? [": ", given.about] : []), is_edited ? ". It was changed. " : ". ");
  if (is_edited) $("about").append(element("button", {type: "button", textContent: "Back to the example", onclick: () => take_example(state.example, state.row)}));
  $("tries").hidden = state.example !== FIRST || state.mode !== "replay";
  if (!is_edited) for (const button of $("tries").querySelectorAll("button")) button.setAttribute("aria-pressed", "false");
}

function edit(rows) {
  $("input").value = rows.join("\n") + "\n";
  state.bytes = edited_input();
  note_edit();
  say_size();
  editor.draw();
}

async function attempt(button, [was, becomes, , comes]) {
  const {examples} = await ready, rows = examples[FIRST].input.trimEnd().split("\n"), row = rows.indexOf(was) + 1;
  state.row = row;
  edit(rows.flatMap((text, at) => at + 1 !== row ? [text] : becomes ? [becomes] : []));
  for (const one of $("tries").querySelectorAll("button")) one.setAttribute("aria-pressed", String(one === button));
  await go(`Row ${row} ${becomes ? "is another one" : "is taken out"}. ${comes} `);
}

/* What kind of input these bytes are. */
function guess(bytes) {
  const front = text_of(bytes.subarray(0, 2000));
  if (/^\s*\(\d+\.\d+\)/.test(front)) return front.includes("#") ? "candump" : "";
  if (/^[\x07TtrRzZVNF][^\n]*\r/.test(front)) return "slcan";
  if (Facts.is_schedule(front)) return "replay";
  if (/^\s*(#|@ )/.test(front)) return "decode";
  return "";
}

async function open_files(list) {
  const files = {};
  let bytes = null;
  for (const file of list) {
    const content = new Uint8Array(await file.arrayBuffer());
    if (/^alloc-\d+\.store$/.test(file.name) || content.length === Facts.STORE_BYTES) files[file.name] = content;
    else bytes = content;
  }
  if (Object.keys(files).length) {
    const ids = Object.keys(files).map(name => /^alloc-(\d+)\.store$/.exec(name)?.[1]).filter(id => id).map(Number);
    return take({mode: "audit", values: [ids.sort((a, b) => a - b).join(" ") || "1"], bytes: new Uint8Array(), files});
  }
  if (!bytes) return;
  const kind = guess(bytes), mode = state.mode, now = words().slice(1);
  const is_log = FORMATS.includes(kind);
  if (is_log && mode === "convert") return take({mode, values: [kind, now[1], ...now.slice(2)], bytes});
  if (is_log) return take({mode: "watch", values: [kind, ...(mode === "watch" ? now.slice(1) : ["1000000", "1", "2", "3"])], bytes});
  const other = kind || (input_of(mode) ? mode : "replay");
  return take({mode: other, values: other === mode ? now : [], bytes});
}

const to_base64 = bytes => btoa(text_of(bytes)).replace(/\+/g, "-").replace(/\//g, "_").replace(/=+$/, "");
const from_base64 = text => Uint8Array.from(atob(text.replace(/-/g, "+").replace(/_/g, "/")), letter => letter.charCodeAt(0));
const through = async (bytes, stream) => new Uint8Array(await new Response(new Blob([bytes]).stream().pipeThrough(stream)).arrayBuffer());

/* The fragment that carries what is given: an example by its name, or all of it, packed. */
async function fragment() {
  const row = state.mode === "replay" && state.row > 1 ? `&row=${state.row}` : "";
  if (state.example && !state.is_edited) return `#example=${encodeURIComponent(state.example)}${row}`;
  const files = Object.fromEntries(Object.entries(state.files).map(([name, bytes]) => [name, text_of(bytes)]));
  const given = {words: words().join(" "), input: input_of(state.mode) ? text_of(state.bytes) : "", files: state.mode === "audit" ? files : {}};
  const packed = await through(new TextEncoder().encode(JSON.stringify(given)), new CompressionStream("deflate-raw"));
  return `#run=${to_base64(packed)}${row}`;
}
async function copy_link() {
  const part = await fragment();
  if (part.length > MOST_IN_LINK) return refuse(`This is too much for a link (${counted(part.length, "character")}): save the input, and hand on the file.`);
  history.replaceState(null, "", part);
  let is_copied = true;
  try { await navigator.clipboard.writeText(location.href); } catch { is_copied = false; }
  const button = $("link");
  button.textContent = is_copied ? "Copied" : "It is in the address";
  setTimeout(() => { button.textContent = "Copy a link"; }, 2000);
}
async function take_link() {
  const given = new URLSearchParams(location.hash.slice(1)), row = Number(given.get("row")) || 0;
  if (given.has("run")) {
    try {
      const text = await through(from_base64(given.get("run")), new DecompressionStream("deflate-raw"));
      const {words: line, input, files} = JSON.parse(new TextDecoder().decode(text)), [mode, ...values] = line.split(" ");
      if (mode in MODES) return take({mode, values, bytes: bytes_of(input), files: Object.fromEntries(Object.entries(files).map(([name, bytes]) => [name, bytes_of(bytes)])), row});
    } catch { /* said below */ }
    return refuse("The link was cut, or is none of this page.");
  }
  return given.has("example") ? take_example(given.get("example"), row) : take_example(FIRST, FIRST_ROW);
}

function save(bytes, name) {
  const link = element("a", {href: URL.createObjectURL(new Blob([bytes])), download: name});
  link.click();
  setTimeout(() => URL.revokeObjectURL(link.href), 10000);
}

const given_files = given => Object.fromEntries(Object.entries(given.files ?? {}).map(([name, text]) => [name, bytes_of(text)]));

/* What the program answers here to an example. */
async function answer_of(name) {
  const {module, examples} = await ready, given = examples[name];
  return runAllocator(module, given.words.split(" "), bytes_of(given.input ?? ""), given_files(given));
}

/* Runs each example here, and compares exit code and SHA-256 with those of the repository. */
async function check() {
  const {examples} = await ready, names = Object.keys(examples), other = [];
  for (const [at, name] of names.entries()) {
    const {status, output} = await answer_of(name);
    if (status !== examples[name].status || await sha256(output) !== examples[name].sum) other.push(name);
    $("checked").textContent = `${at + 1} of ${names.length}`;
  }
  $("checked").textContent = other.length
    ? `Another report, or exit code, than in the repository: ${other.join(", ")}.`
    : `All ${names.length} examples have the bytes and the exit codes of the repository here.`;
}

// --- the parts of the page

for (const [mode, {label}] of Object.entries(MODES)) {
  $("modes").append(element("label", {}, element("input", {type: "radio", name: "mode", value: mode}), label));
}
$("modes").onchange = event => {
  const mode = event.target.value, is_kept = input_of(mode) && ["watch", "convert"].includes(mode) && ["watch", "convert"].includes(state.mode);
  const first = {soak: "a_soak", watch: "a_log/list", convert: "a_log/to_slcan", decode: "decode/an_allocation", audit: "audit/after_a_kill", replay: FIRST}[mode];
  if (is_kept && !state.example) { set_mode(mode); show_input(); go(); } else take_example(first, first === FIRST ? FIRST_ROW : 0);
};
$("row_table").append(...ROWS.map(([row, words]) => element("tr", {}, element("td", {textContent: row}), element("td", {textContent: words}))));
for (const one of TRIES) {
  const button = element("button", {type: "button", textContent: one[2]});
  button.setAttribute("aria-pressed", "false");
  button.onclick = () => attempt(button, one);
  $("tries").append(button);
}
$("what").onsubmit = event => event.preventDefault();
$("examples").onchange = () => { if ($("examples").value) take_example($("examples").value); };
$("input").oninput = () => { state.bytes = edited_input(); say_size(); editor.marks.bad = 0; editor.draw(); later(); };
for (const lines of [editor, report]) {
  const look = () => {
    if (state.mode === "replay" && !$("run").hidden && lines.row() !== state.row) Picture.show(lines.row());
    if (state.mode === "watch" && lines === report) {
      report.mark("now", report.row(), false);
      editor.mark("now", parseInt(report.area.value.split("\n")[report.row() - 1], 10) || 0); // the line of the transfer's last frame
    }
  };
  lines.area.addEventListener("click", look);
  lines.area.addEventListener("keyup", event => { if (/^(Arrow|Page|Home|End)/.test(event.key)) look(); });
}
$("part_first").onchange = () => { state.first = state.row = Math.max(1, Math.round(Number($("part_first").value)) || 1); draw_run(); };
$("open").onclick = () => $("file").click();
$("file").onchange = async () => { await open_files($("file").files); $("file").value = ""; };
$("save_input").onclick = () => save(state.bytes, {replay: "schedule", decode: "text"}[state.mode] ?? "bus.log");
$("save_report").onclick = () => save(answer.output, state.mode === "convert" ? "converted.log" : "report");
$("link").onclick = copy_link;
$("check").onclick = check;
document.addEventListener("keydown", event => { if (event.key === "Enter" && (event.ctrlKey || event.metaKey)) { event.preventDefault(); go(); } });
document.addEventListener("dragover", event => { event.preventDefault(); document.body.classList.add("drop"); });
document.addEventListener("dragleave", event => { if (!event.relatedTarget) document.body.classList.remove("drop"); });
document.addEventListener("drop", event => { event.preventDefault(); document.body.classList.remove("drop"); open_files(event.dataTransfer.files); });
window.addEventListener("hashchange", take_link);
window.addEventListener("beforeprint", () => { $("paper").textContent = state.mode === "replay" ? "" : $("report").value; });

(async () => {
  try {
    const {examples} = await ready, groups = {};
    for (const [name, given] of Object.entries(examples)) (groups[given.words.split(" ")[0]] ??= []).push(name);
    $("examples").append(new Option("(your own)", ""), ...Object.keys(MODES).filter(mode => groups[mode]).map(mode => element("optgroup", {label: MODES[mode].label}, ...groups[mode].map(name => new Option(name, name)))));
    await take_link();
  } catch (error) {
    refuse(`This browser cannot run the program: ${error.message ?? error}`);
  }
})();
return {answer_of, examples: async () => (await ready).examples, is_busy: () => is_busy};
})();
