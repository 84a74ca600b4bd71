"use strict";
/* What a page's own program and scripts answer in Node, without its window. tests/page.py starts it:
   node page_in_node.js PAGE CODE prints the value of the code, which sees what the scripts of the page see. */
const fs = require("fs"), vm = require("vm"), zlib = require("zlib");

const [file, code] = process.argv.slice(2);
const text = fs.readFileSync(file, "utf8");
const script = id => new RegExp(`<script[^>]* id="${id}">\n?([^]*?)</script>`).exec(text)[1];
const unpacked = id => zlib.gunzipSync(Buffer.from(script(id).trim(), "base64"));

vm.runInThisContext(script("host"));
vm.runInThisContext(script("facts_of_runs"));
const program = new WebAssembly.Module(unpacked("program")), examples = JSON.parse(unpacked("given_examples"));
const bytes = letters => new Uint8Array(Buffer.from(letters, "latin1"));
globalThis.Page = {
  examples: async () => examples,
  answer_of: async name => {
    const {words, input, files} = examples[name];
    const stores = Object.fromEntries(Object.entries(files ?? {}).map(([one, letters]) => [one, bytes(letters)]));
    return globalThis.runAllocator(program, words.split(" "), bytes(input ?? ""), stores);
  },
};
Promise.resolve(vm.runInThisContext(code)).then(value => process.stdout.write(JSON.stringify(value)));
