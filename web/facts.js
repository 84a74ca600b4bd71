"use strict";
/* What a run did, as facts to draw, out of a schedule and its report: what tools/view makes of them with Python, in the
   page. tests/page compares the facts of both for each example. tools/caldrouz/page.py says what they are. Not proved. */
const Facts = (() => {
  const MESSAGES = {1: "alloc", 341: "stat", 390: "disc"};
  const SERVICES = {1: ["infoq", "info"], 30: ["appq", "app"], 31: ["voteq", "vote"]};
  const SIGNATURES = {
    alloc: "0b2a812620a11d40", stat: "0f0868d0c1a7c6f1", disc: "821ae2f525f69f21",
    infoq: "ee468a8121c46a9e", info: "ee468a8121c46a9e", appq: "8032c7097b48a3cc", app: "8032c7097b48a3cc",
    voteq: "cdde07bb89a56356", vote: "cdde07bb89a56356",
  };
  const START = 0x80, END = 0x40;
  const NO_UNIQUE_ID = "0".repeat(32);
  /* Why a row is refused, and what that follows from; how a run ends: code, modes, last line, meaning; why a frame is
     dropped; how many words a row has, and which of them is its moment. */
  // make_texts: tables_of_page
  const REFUSALS = {
    1: ["its number is that of no member of the cluster", "words"],
    2: ["its member does not run", "before"],
    3: ["its member runs already", "before"],
    4: ["no frame on the bus has this number yet, or it is 0", "before"],
    5: ["nothing waits in the queue of its {subject}", "before"],
    6: ["a frame from outside may not have a member as its source, nor, with a source, be of a type that only members send: Allocation, Discovery, AppendEntries, RequestVote", "words"],
    7: ["its {subject} would put together a transfer of frames that were not made together", "bus"],
    8: ["its member would take the response to an earlier call for that to a later one", "bus"],
    9: ["no device has this number: they are 1 to 8", "words"],
    10: ["its device is not on the bus", "before"],
    11: ["its device is on the bus already", "before"],
  };
  const EXITS = [
    [0, ["node", "can"], "end <turns>", "its turns are over"],
    [0, ["new"], "made <n>", "its stores are made"],
    [0, ["replace"], "replaced <lost> <leader> <n>", "the store of {member <lost>|the first member in the last line} is made from that of the leader{, <leader>|, the second}"],
    [0, ["audit"], "agree <n>", "the stores agree, on the entries that the report lists"],
    [0, ["replay"], "end <rows>", "every row of the schedule was taken"],
    [0, ["soak"], "end <rounds>", "its rounds are over"],
    [0, ["watch"], "end <lines>", "every line of the log was read"],
    [0, ["convert"], "-", "every line of the log was read"],
    [0, ["decode"], "end <count>", "the report has the numbers of the payload"],
    [2, ["node", "can"], "-", "{the words are none that it reads; nothing was read or written|with the last line `listed` the log of a member has a node ID of its list; else the words are none that it reads}"],
    [2, ["new", "replace", "audit", "replay", "soak", "watch", "convert", "decode"], "-", "the words are none that it reads; nothing was read or written"],
    [3, ["replay"], "bad row <r>", "{row <r>|the row in the last line} cannot be read: it is no row, has more than 120 bytes or a carriage return, or has no line feed"],
    [3, ["watch", "convert"], "bad row <r>", "{line <r>|the line in the last line of the report} cannot be read: it is none of `candump -L` or `candump -l`, or of the adapter, has more than 120 bytes or the end of a DOS line, or does not end"],
    [3, ["decode"], "bad row <r>", "{line <r>|the line in the last line} cannot be read: it has none of the forms of a definition, or does not end"],
    [4, ["replay"], "unlawful <r> <cause>", "{row <r> is refused: <cause>|the row in the last line is refused, for the cause with the number behind it}"],
    [5, ["replay", "watch", "convert", "decode"], "-", "standard input could not be read"],
    [6, ["node", "can"], "-", "standard output could not be written"],
    [6, ["new", "replace", "audit", "replay", "soak", "watch", "convert", "decode"], "-", "standard output could not be written"],
    [7, ["node", "can"], "-", "there is not enough memory to begin with"],
    [7, ["replay", "soak"], "-", "there is not enough memory to begin with"],
    [8, ["replay"], "limit <r>", "{row <r>|the row in the last line} is one more than the words allow"],
    [8, ["watch", "convert"], "limit <r>", "{line <r>|the line in the last line} is one more than the words allow"],
    [8, ["decode"], "limit <r>", "{line <r>|the line in the last line} is one more than a text may have"],
    [9, ["node", "can"], "link fault <id>", "the link of {member <id>|the member in the last line} failed: its socket took or gave no frame any more"],
    [10, ["node", "can"], "disk fault <id>", "the disk of {member <id>|the member in the last line} failed: its store could not be written or synced, or was replaced"],
    [10, ["new"], "disk fault <id>", "the disk of {member <id>|the member in the last line} failed, and no store was made"],
    [10, ["replace"], "disk fault <id>", "the store of {node <id>|the member in the last line} could not be read or written, or somebody wrote to it meanwhile; none was made"],
    [10, ["audit"], "disk fault <id>", "the store of {node <id>|the member in the last line} could not be read, or somebody wrote to it meanwhile"],
    [11, ["node", "can"], "damaged <id> <key>", "the store of {member <id> is damaged, first at key <key>|the member in the last line is damaged, first at the key there}; nothing was sent. Key 0 also stands for a store without a version, as zeros"],
    [11, ["replace"], "damaged <id> <key>", "the store of {node <id> is damaged, first at key <key>|the member in the last line is damaged, first at the key there}; none was made"],
    [11, ["audit"], "damaged <id> <key>", "the store of {node <id> is damaged, first at key <key>|the member in the last line is damaged, first at the key there}"],
    [13, ["replace"], "no leader", "{no remaining member has the votes of most members in its term|no remaining member leads, or the leader has not committed all of its log}; none was made"],
    [13, ["replace"], "uncommitted <leader>", "the leader, {member <leader>|that in the last line}, has not committed all of its log; none was made"],
    [14, ["audit"], "differ <i> <a> <b>", "{nodes <a> and <b> have committed different entries at place <i>|the two members in the last line have committed different entries at the place there}; none before it differ"],
    [15, ["decode"], "-", "the text has no such type, or the type has no such part"],
    [16, ["decode"], "-", "the bytes are no value of this part"],
    [19, ["node", "can"], "another log <id> <node>", "{what member <node> sent contradicts what member <id> has committed|what the second member in the last line sent contradicts what the first has committed}: one of the two has the log of another cluster, or an old store"],
  ];
  const STORE_BYTES = 8844;
  const DROPS = {
    "drop:1": "it is not for it",
    "drop:2": "its start bit does not fit",
    "drop:3": "its toggle is not the next one",
    "drop:4": "its transfer ID is not the expected one",
    "drop:5": "the CRC of its transfer is another",
    "drop:6": "its length is none of a cutting",
    "drop:7": "no block is free for it",
    "drop:8": "no session is free for it",
    "drop:9": "its identifier has no reading",
  };
  const ROW_LENGTHS = {
    open: 4,
    copen: 4,
    tick: 4,
    send: 2,
    rx: 4,
    ext: 3,
    crash: 4,
    fault: 3,
    aopen: 6,
    atick: 4,
    arx: 5,
    asend: 2,
    aend: 2,
  };
  const MOMENTS = {open: 2, copen: 2, tick: 2, rx: 3, aopen: 4, atick: 2, arx: 3};
  // make_texts ends
  /* Why this row, or one that is not known, is refused for this cause. */
  const refusal = (cause, row = "") =>
    (REFUSALS[cause]?.[0] ?? `cause ${cause}`).replace("{subject}", row ? (row[0] === "a" ? "device" : "member") : "member or device");
  /* The meaning of an exit code of a mode, with what this last line names, where it has the form of the code. */
  function meaning(code, mode, line) {
    const exit = EXITS.find(one => one[0] === code && one[1].includes(mode));
    if (!exit) return undefined;
    const names = exit[2].split(" "), values = line.split(" "), is_known = names.length === values.length;
    const text = exit[3].replace(/\{([^|}]*)\|([^}]*)\}/g, (_, known, other) => is_known ? known : other);
    return names.reduce((said, name, at) => name[0] === "<" ? said.replaceAll(name, name === "<cause>" ? refusal(values[at]) : values[at]) : said, text);
  }
  const ROLES = {F: "follower", C: "candidate", L: "leader"};
  const OPENINGS = ["open", "copen"]; // of a member that is told how many there are, and of one that is told who they are
  const OF_MEMBERS = [...OPENINGS, "tick", "send", "rx", "crash", "fault"];
  const PUTS_A_FRAME = ["send", "ext", "asend"];

  /* A schedule and a report that are not of one run, or cannot be read. */
  class Mismatch extends Error {}

  /* Whether a text, of which this is the front, is a schedule: it begins with the word of a row. */
  const is_schedule = front => Object.keys(ROW_LENGTHS).includes(/^([a-z]+) /.exec(front)?.[1]);

  const thousands = value => String(value).replace(/\B(?=(\d{3})+(?!\d))/g, ",");
  const last_of = list => list[list.length - 1];
  const hex = bytes => bytes.map(byte => byte.toString(16).padStart(2, "0")).join("");
  function int(text) {
    if (!/^-?\d+$/.test(text ?? "")) throw new RangeError(text);
    return Number(text);
  }
  function unhex(text) {
    if (text.length % 2 || /[^0-9a-fA-F]/.test(text)) throw new RangeError(text);
    return (text.match(/../g) ?? []).map(digits => parseInt(digits, 16));
  }

  // --- frames and what transfers say, by docs/PROTOCOL.md

  function heading_of(identifier) {
    const heading = {identifier, source: identifier & 0x7f, destination: 0, kind: "other"};
    if (identifier & 0x80) {
      heading.destination = identifier >> 8 & 0x7f;
      const pair = SERVICES[identifier >> 16 & 0xff];
      if (pair && heading.source && heading.destination) heading.kind = pair[identifier & 0x8000 ? 0 : 1];
    } else if (heading.source === 0) {
      heading.kind = (identifier >> 8 & 3) === 1 ? "alloc" : "other";
    } else {
      heading.kind = MESSAGES[identifier >> 8 & 0xffff] ?? "other";
    }
    return heading;
  }

  /* CRC-16/CCITT-FALSE over the signature of the type and the payload. */
  function crc_of(kind, payload) {
    let register = 0xffff;
    for (const byte of [...unhex(SIGNATURES[kind]).reverse(), ...payload]) {
      register ^= byte << 8;
      for (let bit = 0; bit < 8; bit++) register = (register << 1 ^ (register & 0x8000 ? 0x1021 : 0)) & 0xffff;
    }
    return register;
  }

  /* The byte at this place; a payload that is too short has no reading. */
  function byte_of(payload, at) {
    if (at >= payload.length) throw new RangeError("too short");
    return payload[at];
  }

  /* The number in four bytes, the low byte first, of which those that are missing count as 0. */
  function number_of(payload, at = 0) {
    return [3, 2, 1, 0].reduce((value, i) => value * 256 + (payload[at + i] ?? 0), 0);
  }

  function entry_words(node, unique_id) {
    if (node === 0) return "a blank";
    if (unique_id === NO_UNIQUE_ID) return `node ID ${node} kept back`;
    return `node ID ${node} for ${unique_id}`;
  }

  /* Says in words what a whole transfer says. */
  class Teller {
    constructor(members) {
      this.members = new Set(members);
    }
    name(node) {
      if (node === 0) return "a device";
      return this.members.has(node) ? `member ${node}` : `node ${node}`;
    }
    says(heading, payload) {
      try {
        return this.words_of(heading, payload);
      } catch (error) {
        if (!(error instanceof RangeError)) throw error;
        const source = this.name(heading.source);
        return `${source} sends a payload of ${heading.kind} that has no reading: ${hex(payload)}`;
      }
    }
    words_of(heading, payload) {
      const source = this.name(heading.source), to = heading.destination ? this.name(heading.destination) : "";
      switch (heading.kind) {
        case "alloc":
          return this.words_of_allocation(heading, payload);
        case "stat":
          return `${source} is there, up ${number_of(payload)} s`;
        case "disc":
          return `${source} knows ${payload.slice(1).join(", ") || "nobody"}, in a cluster of ${byte_of(payload, 0)}`;
        case "infoq":
          return `${source} asks ${to} for its unique ID`;
        case "info":
          return `${source} tells ${to} its unique ID ${hex(payload.slice(24, 40))}`;
        case "voteq": {
          const place = byte_of(payload, 8), term = place ? ` of term ${number_of(payload, 4)}` : "";
          return `${source} asks ${to} for its vote in term ${number_of(payload)}; its log ends at place ${place}${term}`;
        }
        case "vote": {
          const verb = byte_of(payload, 4) & 0x80 ? "votes for" : "denies its vote to";
          return `${source} ${verb} ${to} in term ${number_of(payload)}`;
        }
        case "appq": {
          const what = `${source} leads ${to} in term ${number_of(payload)}`;
          if (payload.length <= 10) return `${what}, behind place ${byte_of(payload, 8)}, ${byte_of(payload, 9)} committed`;
          const entry = payload.slice(10), node = byte_of(entry, 20) & 0x7f, unique_id = hex(entry.slice(4, 20));
          const words = `${entry_words(node, unique_id)}, of term ${number_of(entry)}`;
          return `${what}, and hands on place ${payload[8] + 1}: ${words}`;
        }
        case "app":
          return `${source} tells ${to} ${byte_of(payload, 4) & 0x80 ? "yes" : "no"} in term ${number_of(payload)}`;
        default:
          return `${source} sends something else: ${hex(payload)}`;
      }
    }
    words_of_allocation(heading, payload) {
      const node = byte_of(payload, 0) >> 1, part = hex(payload.slice(1));
      if (heading.source === 0) {
        const stage = payload[0] & 1 ? "first" : payload.length === 7 ? "second" : "third";
        return `a device asks, ${stage} stage: ${part}${node ? `, and would like node ID ${node}` : ""}`;
      }
      const source = this.name(heading.source);
      if (node) return `${source} tells node ID ${node} to ${part}`;
      return `${source} has ${payload.length - 1} bytes of the unique ID: ${part}`;
    }
  }

  /* The node ID and the unique ID that an Allocation tells, or null. */
  function told(heading, payload) {
    const is_whole = heading.kind === "alloc" && heading.source && payload.length === 17 && payload[0] >> 1;
    return is_whole ? [payload[0] >> 1, hex(payload.slice(1))] : null;
  }

  /* Where in the unique ID the bytes of a device's request belong, and these bytes; or null. */
  function asked_part(heading, payload) {
    if (heading.kind !== "alloc" || heading.source || payload.length < 5 || payload.length > 7) return null;
    return [payload[0] & 1 ? 0 : payload.length === 7 ? 6 : 12, hex(payload.slice(1))];
  }

  // --- a report

  /* The lines of the rows, and what stands behind them. */
  class Report {
    constructor(text) {
      const cut = text.lastIndexOf("\n"), whole = cut < 0 ? "" : text.slice(0, cut);
      this.unfinished = text.slice(cut + 1);
      this.lines = [];
      this.tail = [];
      for (const line of whole ? whole.split("\n") : []) {
        const words = line.split(" ");
        const is_of_row = !this.tail.length && words[0] === String(this.lines.length + 1) && words.length > 2;
        (is_of_row ? this.lines : this.tail).push(words);
      }
    }
    /* How the report ends: a key, and a sentence. `rows` are those of the schedule. */
    end(rows) {
      const count = this.lines.length, last = last_of(this.tail) ?? [""];
      const row = number => `row ${number}` + (0 < number && number <= rows.length ? `, \`${rows[number - 1]}\`,` : "");
      if (last[0] === "end" && last.length === 2 && last[1] === String(count)) {
        return ["whole", `All ${thousands(count)} rows were taken.`];
      }
      if (last[0] === "unlawful" && last.length === 3) {
        const cause = refusal(last[2], rows[Number(last[1]) - 1]);
        return ["refused", `The run ends here: ${row(Number(last[1]))} is refused, since ${cause} (cause ${last[2]}).`];
      }
      if (last[0] === "bad" && last[1] === "row") {
        const why = "it is no row, has more than 120 bytes, or has no line feed";
        return ["refused", `The run ends here: ${row(Number(last[2]))} cannot be read: ${why}.`];
      }
      if (last[0] === "limit") {
        return ["refused", `The run ends here: row ${last[1]} is one more than the words of \`replay\` allow.`];
      }
      const where = `after row ${count}` + (this.unfinished ? `, inside the line '${this.unfinished}'` : "");
      const why = "its reading or writing failed (exit code 5 or 6), or it was cut afterwards";
      return ["cut", `The report stops ${where} and has no last line: ${why}.`];
    }
    /* The committed logs at the end: member -> [[node ID, unique ID]], by place. */
    logs() {
      const found = new Map();
      let member = null;
      for (const words of this.tail) {
        if (words[0] === "log" && words.length === 3) {
          member = Number(words[1]);
          found.set(member, []);
        } else if (member !== null && words.length === 3 && /^\d+$/.test(words[0])) {
          found.get(member).push([Number(words[1]), words[2]]);
        }
      }
      return found;
    }
  }

  // --- a run

  /* What is drawn of one member, of one device, or of the outside. */
  class Lane {
    constructor(kind, key, name) {
      Object.assign(this, {kind, key, name, mode: "never", role: "F", term: 0, last: 0, commit: 0});
      Object.assign(this, {queued: 0, moment: 0, known: [], is_told: false, holds: 0, spans: [], logs: [], changes: []});
      this.inside = ""; // the row in whose step it stopped, or its disk failed, until it opens again
    }
    what() {
      return this.mode === "run" ? this.role : this.mode;
    }
    /* Keeps what the row changed. */
    note(row) {
      const keep = (list, ...now) => {
        const before = last_of(list);
        if (!before || now.some((value, at) => value !== before[at + 1])) list.push([row, ...now]);
      };
      keep(this.spans, this.what(), this.term);
      keep(this.logs, this.last, this.commit);
      const {term, last, commit, queued, moment} = this;
      keep(this.changes, this.what(), term, last, commit, queued, moment, this.is_told ? "all" : this.known.join(" "));
    }
  }

  /* What the step stored in which a member stopped, or its disk failed, as its next opening shows it. */
  function stored_by(lane, now) {
    if (!lane.inside) return "";
    const names = {term: "the term", last: "entries", commit: "the commit index"};
    const other = Object.keys(names).filter(key => lane[key] !== now[key]).map(key => names[key]).join(" and ");
    return `; its ${lane.inside} stored ${other || "neither term, entries nor commit index"} before it stopped`;
  }

  /* A run, read from its schedule and its report. */
  class Run {
    constructor(schedule, report) {
      this.all_rows = schedule.split("\n");
      if (last_of(this.all_rows) === "") this.all_rows.pop();
      this.report = new Report(report);
      this.lines = this.report.lines;
      const total = this.lines.length;
      if (total > this.all_rows.length) {
        throw new Mismatch(`the report has ${total} lines of rows, and the schedule ${this.all_rows.length} rows`);
      }
      this.rows = this.all_rows.slice(0, total);
      [this.end, this.end_words] = this.report.end(this.all_rows);
      const words = this.rows.map(row => row.split(" "));
      words.forEach((row, at) => {
        if (row.length === ROW_LENGTHS[row[0]]) return;
        const what = `row ${at + 1} of the schedule, '${this.rows[at]}', is no row`;
        throw new Mismatch(`${what}, and the report has a line for it`);
      });
      const nodes = words.filter(row => OF_MEMBERS.includes(row[0])).map(row => Number(row[1]));
      this.members = [...new Set(nodes)].sort((a, b) => a - b);
      this.teller = new Teller(this.members);
      this.outside = new Lane("outside", 0, "outside");
      this.member_lanes = new Map(this.members.map(member => [member, new Lane("member", member, `member ${member}`)]));
      this.device_lanes = [];
      this.slots = new Map(); // the lanes of the devices that are there
      this.frames = new Map();
      this.begun = new Map(); // the transfers that are not whole yet, of each lane
      Object.assign(this, {arrows: [], lost: [], marks: [], events: [], said: [], moments: [], now: 0});
      for (const lane of this.member_lanes.values()) lane.note(1);
      words.forEach((row, at) => this.take(at + 1, row, this.lines[at]));
      this.find_lost();
      this.give_devices_their_lanes();
      this.lanes = [this.outside, ...this.device_lanes, ...this.member_lanes.values()];
    }

    // --- one row

    take(number, row, line) {
      const name = row[0];
      if (name in MOMENTS) this.now = Number(row[MOMENTS[name]]);
      const expected = name === "ext" ? "ext" : (name[0] === "a" ? "a" : "") + row[1];
      if (line[1] !== expected) {
        const what = `line ${number} of the report, '${line.join(" ")}', is not that of row ${number} of the schedule`;
        throw new Mismatch(`${what}, '${row.join(" ")}'`);
      }
      try {
        this.said.push(this.said_of(number, row, line));
      } catch (error) {
        if (!(error instanceof RangeError || error instanceof TypeError)) throw error;
        throw new Mismatch(`line ${number} of the report, '${line.join(" ")}', is none of row '${row.join(" ")}'`);
      }
      this.moments.push(this.now);
    }

    said_of(number, row, line) {
      if (row[0] === "ext") return this.put(number, this.outside, int(line[2]), row[1], row[2]);
      if (row[0][0] === "a") return this.of_device(number, row, line);
      return this.of_member(number, row, line, this.member_lanes.get(int(row[1])));
    }

    mark(number, lane, what, text = "") {
      this.marks.push([number, lane, what, text]);
      this.events.push(number);
    }

    /* The payload of the transfer that is whole with this frame, or null, also where its CRC is that of another one. */
    joined(lane, identifier, data) {
      const tail = last_of(data), key = `${identifier} ${tail & 31}`;
      if (!this.begun.has(lane)) this.begun.set(lane, new Map());
      const begun = this.begun.get(lane);
      if (tail & START) begun.set(key, []);
      if (!begun.has(key)) return null;
      const body = begun.get(key).concat(data.slice(0, -1));
      if (!(tail & END)) {
        begun.set(key, body);
        return null;
      }
      begun.delete(key);
      if (tail & START) return body;
      const payload = body.slice(2), {kind} = heading_of(identifier);
      return kind === "other" || crc_of(kind, payload) === (body[0] | body[1] << 8) ? payload : null;
    }

    /* A frame comes to the bus. */
    put(number, lane, frame_number, identifier, digits) {
      const heading = heading_of(parseInt(identifier, 16));
      const payload = this.joined(lane, heading.identifier, unhex(digits));
      const frame = {number: frame_number, row: number, lane, heading, payload, words: "", had: new Set()};
      if (payload !== null) {
        frame.words = this.teller.says(heading, payload);
        const pair = told(heading, payload);
        if (pair && lane.kind === "member") this.mark(number, lane, "told", String(pair[0]));
      } else {
        const is_named = heading.source || lane.kind === "outside";
        const whose = is_named ? `from ${this.teller.name(heading.source)}` : `of ${lane.name}`;
        frame.words = `a frame of ${heading.kind} ${whose}`;
      }
      this.frames.set(frame_number, frame);
      return frame.words;
    }

    frame(text) {
      const frame = this.frames.get(int(text));
      if (!frame) throw new RangeError(text);
      return frame;
    }

    of_member(number, row, line, lane) {
      const what = line[2];
      let said;
      if (row[0] === "rx" && (what === "stop" || what === "fault")) {
        this.draw(number, this.frame(row[2]), lane, lane.mode === "failed" ? "unwanted" : "changed");
      }
      const is_stopped = what === "stop" || what === "fault";
      if (is_stopped && (row[0] === "tick" || row[0] === "rx") && lane.mode === "run") lane.inside = row[0];
      if (row[0] in MOMENTS && what !== "fault") {
        lane.moment = OPENINGS.includes(row[0]) ? this.now : Math.max(lane.moment, this.now);
      }
      if (row[0] === "send") {
        this.now = lane.moment;
        lane.queued = Math.max(0, lane.queued - 1);
        said = this.put(number, lane, int(line[3]), line[4], line[5]);
      } else if (what === "open") {
        const now = {term: int(line[3]), last: int(line[5]), commit: int(line[6])}, stored = stored_by(lane, now);
        Object.assign(lane, {mode: "run", role: "F", queued: 0, inside: "", ...now});
        Object.assign(lane, {known: [lane.key], is_told: row[0] === "copen"});
        const vote = line[4] !== "0" ? `, its vote is for ${line[4]}` : "";
        said = `${lane.name} opens: term ${lane.term}${vote}, ${lane.last} entries, ${lane.commit} committed${stored}`;
        this.mark(number, lane, "open");
      } else if (what === "stop") {
        Object.assign(lane, {mode: "stopped", queued: 0, known: [], is_told: false});
        said = `${lane.name} stops` + (row[0] === "crash" ? "" : ` inside its ${row[0]}`);
        this.mark(number, lane, "stop");
      } else if (what === "fault") {
        if (OPENINGS.includes(row[0])) {
          this.mark(number, lane, "fault");
        } else if (lane.mode !== "failed") {
          Object.assign(lane, {mode: "failed", queued: 0});
          this.mark(number, lane, "fault");
        }
        said = `${lane.name}: its disk failed`;
      } else if (what === "armed") {
        said = `${lane.name}: a ${row[0] === "crash" ? "stop" : "failure"} is armed for device call ${row[2]}`;
        this.mark(number, lane, "armed", row[2]);
      } else if (what in ROLES) {
        said = this.of_step(number, row, line, lane);
      } else {
        throw new RangeError(what);
      }
      lane.note(number);
      return said;
    }

    of_step(number, row, line, lane) {
      const before = {role: lane.role, term: lane.term, last: lane.last, commit: lane.commit, known: lane.known.length};
      Object.assign(lane, {mode: "run", role: line[2], term: int(line[3])});
      Object.assign(lane, {last: int(line[4]), commit: int(line[5]), queued: int(line[6])});
      const seen = line[7], marks = line.slice(8), said = [];
      const is_other_role = lane.role !== before.role || lane.term !== before.term;
      if (is_other_role) {
        const verb = {F: "follows", C: "asks to lead", L: "leads"}[lane.role];
        said.push(`${lane.name} ${verb} in term ${lane.term}`);
        this.events.push(number);
      }
      if (lane.last !== before.last) said.push(`${lane.name} has ${lane.last} entries`);
      if (lane.commit > before.commit) {
        said.push(`${lane.name} commits up to place ${lane.commit}`);
        this.mark(number, lane, "commit", String(lane.commit));
      }
      if (marks.some(mark => mark[0] === "-")) {
        said.push("a transfer does not fit into its queue");
        this.mark(number, lane, "full");
      }
      if (row[0] === "rx") {
        const frame = this.frame(row[2]), kind = frame.heading.kind;
        if (seen === "took" && kind === "disc") this.hear(lane, frame);
        const is_of_itself = mark => ["+stat", "+disc", "+app:", "+infoq"].some(name => mark.startsWith(name));
        const is_other_log = lane.last !== before.last || lane.commit !== before.commit;
        const knows_more = lane.known.length !== before.known;
        const changed = is_other_role || is_other_log || knows_more || marks.some(mark => !is_of_itself(mark));
        this.arrow(number, frame, lane, seen, changed || ["vote", "voteq", "info", "infoq"].includes(kind));
        if (knows_more) said.push(`${lane.name} knows ${lane.known.join(", ")}`);
      }
      return said.join("; ");
    }

    /* A list that a member heard is joined to its own, as far as the cluster's size goes. */
    hear(lane, frame) {
      const size = frame.payload[0];
      if (frame.heading.source === lane.key || lane.is_told) return;
      for (const node of [frame.heading.source, ...frame.payload.slice(1)]) {
        const is_new = !lane.known.includes(node) && 1 <= node && node <= 125;
        if (is_new && lane.known.length < size) lane.known = [...lane.known, node];
      }
    }

    arrow(number, frame, lane, seen, changed) {
      let how = seen === "part" || seen === "bad" ? seen : seen === "drop:1" ? "unwanted" : "dropped";
      if (seen === "took") how = changed ? "changed" : "took";
      this.draw(number, frame, lane, how);
    }

    draw(number, frame, lane, how) {
      frame.had.add(lane);
      this.arrows.push([frame.row, number, frame.lane, lane, frame.heading.kind, how, frame.number]);
    }

    of_device(number, row, line) {
      const slot = row[1], name = row[0];
      let lane = this.slots.get(slot), said;
      if (name === "aopen") {
        lane = this.device_lane(row[2].toLowerCase());
        this.slots.set(slot, lane);
        Object.assign(lane, {mode: "wait", holds: 0, queued: 0, moment: this.now});
        this.mark(number, lane, "open");
        const wish = row[3] !== "0" ? `, and would like node ID ${row[3]}` : "";
        said = `the device ${lane.key} is there (a${slot})${wish}`;
      } else if (name === "aend") {
        Object.assign(lane, {mode: "gone", queued: 0});
        said = `the device a${slot} goes`;
        this.mark(number, lane, "stop");
        this.slots.delete(slot);
      } else if (name === "asend") {
        this.now = lane.moment;
        lane.queued = Math.max(0, lane.queued - 1);
        said = this.put(number, lane, int(line[3]), line[4], line[5]);
      } else {
        said = this.of_device_step(number, row, line, lane);
      }
      lane.note(number);
      return said;
    }

    of_device_step(number, row, line, lane) {
      lane.moment = Math.max(lane.moment, this.now);
      const before = {mode: lane.mode, holds: lane.holds}, said = [];
      const [mode, holds] = line[2].split(":");
      if (mode !== "wait" && mode !== "hold") throw new RangeError(line[2]);
      Object.assign(lane, {mode, queued: int(line[3]), holds: holds === undefined ? 0 : int(holds)});
      lane.term = lane.holds;
      if (lane.mode !== before.mode || lane.holds !== before.holds) {
        said.push(`the device ${lane.key} holds node ID ${lane.holds}`);
        this.mark(number, lane, "hold", String(lane.holds));
      }
      if (line.slice(5).some(mark => mark[0] === "-")) {
        said.push("a request does not fit into its queue");
        this.mark(number, lane, "full");
      }
      if (row[0] === "arx") {
        const frame = this.frame(row[2]), payload = frame.payload ?? [];
        const is_mine = frame.heading.source && payload.length > 1 && lane.key.startsWith(hex(payload.slice(1)));
        this.arrow(number, frame, lane, line[4], Boolean(is_mine) && before.mode === "wait");
      }
      return said.join("; ");
    }

    /* The lane of a unique ID: the one that it had, unless a device that is there still has it. */
    device_lane(unique_id) {
      const taken = [...this.slots.values()];
      const had = this.device_lanes.find(lane => lane.key === unique_id && !taken.includes(lane));
      if (had) return had;
      const lane = new Lane("device", unique_id, unique_id);
      lane.note(1);
      this.device_lanes.push(lane);
      return lane;
    }

    // --- the whole run

    find_lost() {
      for (const frame of this.frames.values()) {
        const kind = frame.heading.kind, to = frame.heading.destination;
        if (kind === "other" || (kind === "alloc" && frame.heading.source)) continue; // no member takes these
        for (const member of to ? [to] : this.members) {
          const lane = this.member_lanes.get(member);
          if (!lane || frame.had.has(lane) || lane === frame.lane) continue;
          this.lost.push([frame.row, frame.lane, lane, kind, frame.number]);
        }
      }
    }

    /* Requests from outside go to the lanes of the unique IDs that they are of, as far as these are known. */
    give_devices_their_lanes() {
      const known = new Map(this.device_lanes.map(lane => [lane.key, lane]));
      const whole = [...this.frames.values()].filter(frame => frame.payload !== null);
      const pairs = whole.filter(frame => told(frame.heading, frame.payload))
        .map(frame => [frame, ...told(frame.heading, frame.payload)]);
      const unique_ids = new Set(pairs.map(([, , unique_id]) => unique_id));
      for (const log of this.report.logs().values()) {
        for (const [node, unique_id] of log) if (node && unique_id !== NO_UNIQUE_ID) unique_ids.add(unique_id);
      }
      const moved = new Map();
      let later = null;
      for (const frame of [...whole].reverse()) {
        const part = frame.lane === this.outside ? asked_part(frame.heading, frame.payload) : null;
        if (part === null) continue;
        const [at, digits] = part;
        const fit = [...new Set([...known.keys(), ...unique_ids])].filter(one => one.startsWith(digits, 2 * at));
        if (fit.length !== 1 && !fit.includes(later)) continue;
        if (!fit.includes(later)) later = fit[0]; // several fit: it is of the device whose next stage follows
        if (!known.has(later)) {
          known.set(later, new Lane("heard", later, later));
          this.device_lanes.push(known.get(later));
        }
        frame.lane = known.get(later);
        moved.set(frame.number, frame.lane);
      }
      const first_row = lane => lane.kind === "heard" ? whole.find(frame => frame.lane === lane)?.row ?? 0 : 0;
      const first_rows = new Map(this.device_lanes.map(lane => [lane, first_row(lane)]));
      this.device_lanes.sort((a, b) => first_rows.get(a) - first_rows.get(b));
      for (const arrow of this.arrows) arrow[2] = moved.get(arrow[6]) ?? arrow[2];
      for (const lost of this.lost) lost[1] = moved.get(lost[4]) ?? lost[1];
      for (const [frame, node, unique_id] of pairs) {
        const lane = known.get(unique_id);
        if (lane?.kind === "heard" && frame.lane.kind === "member") this.marks.push([frame.row, lane, "told", String(node)]);
      }
    }

    /* The places of the committed logs at the end: [place, node ID, unique ID, the members that have it]. */
    places() {
      const found = new Map();
      for (const [member, log] of this.report.logs()) {
        log.forEach(([node, unique_id], at) => {
          const key = `${at + 1} ${node} ${unique_id}`;
          if (!found.has(key)) found.set(key, [at + 1, node, unique_id, []]);
          found.get(key)[3].push(member);
        });
      }
      const by_text = (a, b) => a < b ? -1 : a > b ? 1 : 0;
      return [...found.values()].sort((a, b) => a[0] - b[0] || a[1] - b[1] || by_text(a[2], b[2]));
    }
  }

  // --- what is drawn of these rows

  /* The changes of rows first to last; what held before is told as of the first row. */
  function clip(changes, first, last) {
    const before = changes.filter(change => change[0] <= first);
    const start = before.length ? [[first, ...last_of(before).slice(1)]] : [];
    return [...start, ...changes.filter(change => first < change[0] && change[0] <= last)];
  }

  function facts(run, title, first, last) {
    const index = new Map(run.lanes.map((lane, at) => [lane, at]));
    const is_inside = row => first <= row && row <= last, cut = list => list.slice(first - 1, last);
    const frames = {}, arrows = [];
    for (const frame of run.frames.values()) if (is_inside(frame.row)) frames[frame.number] = frame.words;
    for (const [start, end, source, to, kind, how, number] of run.arrows) {
      if (!is_inside(end)) continue;
      arrows.push([start, end, index.get(source), index.get(to), kind, how, number]);
      frames[number] ??= run.frames.get(number).words;
    }
    const lanes = run.lanes.map(({kind, name, spans, logs, changes}) => (
      {kind, name, spans: clip(spans, first, last), logs: clip(logs, first, last), states: clip(changes, first, last)}
    ));
    const lost = run.lost.filter(([row]) => is_inside(row))
      .map(([row, source, to, kind, number]) => [row, index.get(source), index.get(to), kind, number]);
    const marks = run.marks.filter(([row]) => is_inside(row))
      .map(([row, lane, what, text]) => [row, index.get(lane), what, text]);
    return {
      title, first, last, total: run.rows.length, end: run.end, end_words: run.end_words, lanes,
      rows: cut(run.rows),
      lines: cut(run.lines).map(line => line.slice(1).join(" ")),
      said: cut(run.said).map((said, at) => PUTS_A_FRAME.includes(run.rows[first - 1 + at].split(" ")[0]) ? "" : said),
      moments: cut(run.moments), frames, arrows, lost, marks,
      events: [...new Set(run.events.filter(is_inside))].sort((a, b) => a - b),
      places: run.places(), roles: ROLES, drops: DROPS,
    };
  }

  /* The run in one sentence. */
  function summary(run) {
    const plural = (count, one, many = `${one}s`) => `${thousands(count)} ${count === 1 ? one : many}`;
    const marks = what => run.marks.filter(([, lane, kind]) => kind === what && lane.kind === "member").length;
    const leads = run.lanes.flatMap(lane => lane.spans).filter(([, what]) => what === "L").length;
    const devices = run.lanes.filter(lane => lane.kind === "device" || lane.kind === "heard").length;
    const least = run.moments.reduce((a, b) => Math.min(a, b), Infinity);
    const most = run.moments.reduce((a, b) => Math.max(a, b), 0);
    return [
      plural(run.rows.length, "row"),
      plural(run.members.length, "member"),
      run.moments.length ? `${thousands(least)} to ${thousands(most)} ms` : "no moment",
      plural(marks("stop"), "stop"),
      plural(marks("fault"), "failure"),
      `${plural(leads, "election")} won`,
      `${plural(devices, "device")} known by unique ID`,
    ].join(", ") + ".";
  }

  return {Mismatch, REFUSALS, STORE_BYTES, meaning, refusal, Run, facts, is_schedule, summary};
})();

if (typeof module !== "undefined") module.exports = Facts;
