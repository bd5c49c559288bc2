// The searcher of a site in Node, for tests/site.py: each line of the input is a call in JSON, and each line of the output its value.
"use strict";

const { execFileSync } = require("child_process");
const fs = require("fs");
const path = require("path");
const readline = require("readline");
const vm = require("vm");

let files, searcher, module_;

const load = async (file) => globalThis.buncoSearcher.unpacked(fs.readFileSync(path.join(files, file.name)));

const calls = {
  // A site in a folder. Where a program is given, that answers over an index, and the module is not run.
  async open({ folder, searcher: script, table: name, program, index }) {
    files = folder;
    vm.runInThisContext(fs.readFileSync(path.join(files, script), "utf8"), { filename: script });
    const table = JSON.parse(new TextDecoder().decode(await load({ name })));
    const { Module, Searcher } = globalThis.buncoSearcher;
    const native = { answer: (...lines) => execFileSync(program, [index, "run"], { input: lines.join("\n") + "\n", encoding: "utf8" }) };
    module_ = program ? null : await Module.of(await load(table.module), await load(table.index));
    searcher = new Searcher(table, module_ ?? native, load);
    return module_ && Object.keys(module_.exports);
  },
  ask: (fields) => searcher.ask(fields),
  shown: (fields) => searcher.shown(fields),
  stats: () => searcher.stats(),
  // The replies to lines over the index in a file, or why there are none.
  replies({ index, lines }) {
    module_.exports.free(module_.index);
    const bytes = fs.readFileSync(index);
    Object.assign(module_, { index: module_.put(bytes), length: BigInt(bytes.length) });
    try {
      return { replies: module_.answer(...lines) };
    } catch (reason) {
      return { fault: reason.message };
    }
  },
  // The characters of a range whose folding is another one, with it.
  folded({ from, to }) {
    const all = Array.from({ length: to - from }, (_, at) => from + at).filter((code) => code < 0xd800 || code > 0xdfff);
    const found = all.map((code) => [code, globalThis.buncoSearcher.folded(String.fromCodePoint(code)).text]);
    return found.filter(([code, text]) => text !== String.fromCodePoint(code));
  },
};

async function main() {
  for await (const line of readline.createInterface({ input: process.stdin })) {
    const { call, argument } = JSON.parse(line);
    console.log(JSON.stringify((await calls[call](argument)) ?? null));
  }
}

main();
