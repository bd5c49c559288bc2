// What the page asks: the module, in a worker. `page.js` says what an engine has to have.
//
// Where the page was opened as a file, a browser lets it fetch nothing and begin no worker. Then scripts bring the same data, and the
// page itself does what the worker does.
"use strict";

const FILES = "files/"; // where the files of the site stand, below the page

// Asks a worker by messages.
function startedWorker(script, progress) {
  const worker = new Worker(script);
  const waiting = new Map();
  let last = 0;
  const fail = (reason) => {
    for (const { failed } of waiting.values()) failed(reason);
    waiting.clear();
  };
  worker.addEventListener("error", (event) => fail(new Error(event.message || `${script} can't be read`)));
  worker.addEventListener("message", ({ data }) => {
    if (data.progress) return progress(data.progress);
    const { done, failed } = waiting.get(data.id);
    waiting.delete(data.id);
    if ("reason" in data) failed(new Error(data.reason));
    else done(data.value);
  });
  return (call, argument) =>
    new Promise((done, failed) => {
      waiting.set(++last, { done, failed });
      worker.postMessage({ id: last, call, argument });
    });
}

// Runs a script of the site.
function run(name) {
  return new Promise((done, failed) => {
    const script = document.createElement("script");
    script.src = name;
    script.addEventListener("load", done);
    script.addEventListener("error", () => failed(new Error(`${name} can't be read`)));
    document.head.append(script);
  });
}

// The bytes of a file, by the script that has them as a text.
async function taken(file) {
  await run(`${FILES}${file.name}.js`);
  const text = atob(globalThis.buncoFiles[file.name]);
  delete globalThis.buncoFiles[file.name];
  return globalThis.buncoSearcher.unpacked(Uint8Array.from(text, (one) => one.charCodeAt(0)));
}

async function startedHere(script, table) {
  await run(FILES + script);
  const said = JSON.parse(new TextDecoder().decode(await taken({ name: table })));
  return globalThis.buncoSearcher.Searcher.of(said, taken);
}

globalThis.engine = {
  home: "",
  mark: "#",
  before: null, // the end of the call before

  async begin() {
    const { table, searcher } = document.body.dataset;
    if (location.protocol === "file:") {
      const here = await startedHere(searcher, table);
      return async (call, argument) => here[call](argument);
    }
    const call = startedWorker(FILES + searcher, this.progress);
    await call("begin", table);
    return call;
  },

  progress({ done, all }) {
    const bar = document.getElementById("progress");
    if (bar) Object.assign(bar, { value: done, max: all });
  },

  // One call after the other; one that nobody waits for any more is left out.
  async call(name, argument, signal) {
    const before = this.before;
    let end;
    this.before = new Promise((done) => (end = done));
    try {
      await before;
      this.started ??= this.begin();
      const call = await this.started;
      signal.throwIfAborted();
      return await call(name, argument);
    } finally {
      end();
    }
  },

  stats(signal) {
    return this.call("stats", null, signal);
  },
  ask(fields, signal) {
    return this.call("ask", fields, signal);
  },
  shown(fields, signal) {
    return this.call("shown", fields, signal);
  },
  failed(address, reason) {
    const said = document.createElement("p");
    said.className = "fault";
    said.textContent = `The search can't be had here: ${reason.message}. It may help to load the page again.`;
    document.getElementById("main").replaceChildren(said);
  },
};
