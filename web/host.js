"use strict";
/* Runs the program `allocator` in a module that host.c was linked into: words, input and files in, the exit code and
   the report out. The module is made anew for each run, so no run leaves anything to the next. Not proved. */
async function runAllocator(module, words, input, files = {}) {
  const written = {1: [], 2: []};
  let memory = null;
  const {exports} = await WebAssembly.instantiate(module, {
    host: {
      write: (stream, at, count) => {
        written[stream].push(new Uint8Array(memory.buffer, Number(at), Number(count)).slice());
      },
      now: () => performance.now(),
    },
  });
  memory = exports.memory;
  const utf8 = text => new TextEncoder().encode(text);
  /* The place of these bytes in the module's memory, with a zero behind them. */
  const put = bytes => {
    const at = exports.room(BigInt(bytes.length + 1));
    const room = new Uint8Array(memory.buffer, Number(at), bytes.length + 1);
    room.set(bytes);
    room[bytes.length] = 0;
    return at;
  };
  const line = utf8(["allocator", ...words].join("\0"));
  exports.words(put(line), BigInt(line.length + 1));
  exports.input(put(input), BigInt(input.length));
  for (const [name, bytes] of Object.entries(files)) {
    exports.file(put(utf8(name)), put(bytes), BigInt(bytes.length));
  }
  const status = exports.run();
  const joined = pieces => {
    const all = new Uint8Array(pieces.reduce((sum, piece) => sum + piece.length, 0));
    let at = 0;
    for (const piece of pieces) {
      all.set(piece, at);
      at += piece.length;
    }
    return all;
  };
  return {status, output: joined(written[1]), errors: joined(written[2])};
}

if (typeof module !== "undefined") module.exports = {runAllocator};
