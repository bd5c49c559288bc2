// What the page asks: the server that it came from. `page.js` says what an engine has to have.
"use strict";

globalThis.engine = {
  home: "./",
  mark: "?",

  async json(address, signal) {
    const reply = await fetch(address, { signal, headers: { Accept: "application/json" } });
    return reply.json();
  },
  stats(signal) {
    return this.json("./api/status", signal);
  },
  ask(fields, signal) {
    return this.json("./api/search?" + new URLSearchParams(fields), signal);
  },
  // Whoever stands between may have answered, as with a page that asks for a password: the browser shows it.
  failed(address) {
    location.assign(address);
  },
};
