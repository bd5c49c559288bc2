// Answers to queries by the WebAssembly module, over an index in its memory, and by the files that say what the documents are.

const ROWS = 20; // of a page
const MOST_BEST = 1000; // answers that are ordered by their scores
const QUERY_LIMIT = 2000; // characters of a query
const ROOM = 1 << 16; // bytes of replies that are looked for at first
const NO_ROOM = -11n;
// What stands of a document in the files of the site, in order, as `Record` of documents.py has it.
const RECORD = ["number", "kind", "title", "facts", "fields", "place", "head", "body", "hasText", "isCut"];
// What the module answers in place of replies, and the number that it tells besides.
const FAULTS = new Map([
  [-5n, () => "there is not enough memory for the index"],
  [-6n, (detail) => `the index is damaged at ${detail}`],
  [-7n, () => "the file holds no index"],
  [-8n, (detail) => `there is no room for ${detail} bytes`],
  [-9n, () => "the query is too long"],
]);

// The module with an index in its memory.
class Module {
  static async of(code, index) {
    const { instance } = await WebAssembly.instantiate(code, {});
    return new Module(instance.exports, index);
  }

  constructor(exports, index) {
    this.exports = exports;
    this.length = BigInt(index.length);
    this.index = this.put(index);
    this.detail = this.block(8);
    this.room = ROOM;
  }

  block(bytes) {
    const found = this.exports.malloc(BigInt(bytes || 1));
    if (found === 0n) throw new Error(FAULTS.get(-5n)());
    return found;
  }

  // Where the bytes stand in the module's memory, which is another buffer whenever it has grown.
  put(bytes) {
    const place = this.block(bytes.length);
    new Uint8Array(this.exports.memory.buffer, Number(place), bytes.length).set(bytes);
    return place;
  }

  // The replies to these lines, each behind a newline, as one text.
  answer(...lines) {
    const bytes = new TextEncoder().encode(lines.map((line) => line + "\n").join(""));
    const place = this.put(bytes);
    try {
      return this.replies(place, BigInt(bytes.length));
    } finally {
      this.exports.free(place);
    }
  }

  replies(lines, length) {
    for (;;) {
      const room = this.block(this.room);
      try {
        const said = this.exports.alta_embed_answer(this.index, this.length, lines, length, room, BigInt(this.room), this.detail);
        const detail = new DataView(this.exports.memory.buffer).getBigUint64(Number(this.detail), true);
        if (said >= 0n) return new TextDecoder().decode(new Uint8Array(this.exports.memory.buffer, Number(room), Number(said)));
        if (said !== NO_ROOM) throw new Error(FAULTS.get(said)?.(detail) ?? `the module ended with ${said}`);
        this.room = Number(detail);
      } finally {
        this.exports.free(room);
      }
    }
  }
}

// The rows of a reply to a search or a `top`, how many documents there are, and the lines behind it.
function rowsOf(reply) {
  const lines = reply.split("\n");
  const end = lines.findIndex((line) => line.startsWith("found "));
  const rows = lines.slice(0, end).map((line) => {
    const [number, name, score] = line.split(" ");
    return { number: Number(number), name, score: score === undefined ? null : Number(score) };
  });
  return { rows, found: Number(lines[end].slice("found ".length)), rest: lines.slice(end + 1).join("\n") };
}

// The rows before that of a number, one more than a page has, the last one first; all where there is no number. Where that row is gone,
// those of lower numbers stand for them.
function lastRows(rows, before) {
  const at = before === null ? rows.length : rows.findIndex((row) => row.number === before);
  const above = at < 0 ? rows.filter((row) => row.number < before) : rows.slice(0, at);
  return above.slice(-ROWS - 1).reverse();
}

function numberOf(text) {
  return /^[0-9]{1,19}$/.test(text ?? "") ? Number(text) : null;
}

// The site: `table` says what there is, and `load` answers the bytes of a file by its name.
class Searcher {
  constructor(table, module, load) {
    this.table = table;
    this.module = module;
    this.load = load;
    this.texts = new Map();
    this.parts = new Map(table.parts.map(([number, first, name]) => [number, { first, name }]));
  }

  static async of(table, load, progress = () => {}) {
    const [code, index] = await Promise.all([load(table.module, progress), load(table.index, progress)]);
    return new Searcher(table, await Module.of(code, index), load);
  }

  stats() {
    const [, documents, , words] = this.module.answer("stats").split(" ");
    return { documents: Number(documents), words: Number(words) };
  }

  // The answers to a query, or its fault, as the page takes them.
  async ask(fields) {
    const query = fields.q;
    if ([...query].length > QUERY_LIMIT) return { fault: `a query has at most ${QUERY_LIMIT.toLocaleString("en-US")} characters here`, place: null };
    const line = query.replace(/[\t\n\r]/g, " ");
    const order = fields.order === "newest" ? "newest" : "best";
    const reply = this.module.answer(order === "best" ? `top ${MOST_BEST} ${line}` : `search ${line}`, `explain ${line}`);
    if (reply.startsWith("! ")) return this.fault(reply.slice(0, reply.indexOf("\n")));
    const said = rowsOf(reply);
    const wanted = new Wanted(said.rest);
    const page = order === "best" ? this.best(said, line, fields.begin) : this.newest(said, fields.begin);
    const rows = await Promise.all(page.rows.map((row) => this.answerOf(row, wanted, fields)));
    return { query, order, found: page.found, rows, following: page.following };
  }

  fault(reply) {
    const [, , place, cause] = reply.split(" ");
    return reply.startsWith("! query ") ? { fault: this.table.causes[cause] ?? cause, place: Number(place) } : { fault: reply, place: null };
  }

  // The rows of documents: those of the parts of one as one row with its name, where the first of them stands.
  whole(rows) {
    const given = new Set();
    const named = rows.map((row) => ({ ...row, name: this.parts.get(row.number)?.name ?? row.name }));
    return named.filter((row) => !given.has(row.name) && given.add(row.name));
  }

  best(said, line, begin) {
    const rows = this.whole(said.rows.sort((one, other) => other.score - one.score || other.number - one.number));
    const found = this.parts.size ? this.whole(rowsOf(this.module.answer(`search ${line}`)).rows).length : said.found;
    const at = Math.min(/^[0-9]{1,4}$/.test(begin ?? "") ? Number(begin) : 0, MOST_BEST - ROWS);
    // The last page has what is left of the best.
    const following = at + ROWS < Math.min(rows.length, MOST_BEST) ? String(at + ROWS) : "";
    return { rows: rows.slice(at, at + ROWS), found, following };
  }

  newest(said, begin) {
    const all = this.whole(said.rows);
    const rows = lastRows(all, numberOf(begin));
    return { rows: rows.slice(0, ROWS), found: all.length, following: rows.length > ROWS ? String(rows[ROWS - 1].number) : "" };
  }

  async answerOf(row, wanted, fields) {
    const record = await this.record(row.number);
    const [line, snippet] = record?.hasText ? bestOf(record, wanted) : [1, []];
    const title = record?.title ?? row.name;
    return { ...row, kind: record?.kind ?? "", title, facts: record?.facts ?? [], line, snippet, link: this.link(row, record, fields) };
  }

  // Where a document is: below the address that the site names, or else in this page, where its text is.
  link(row, record, fields) {
    const place = record?.place ?? encodeURIComponent(row.name);
    const base = this.table.base;
    if (base) return base.includes("{}") ? base.replaceAll("{}", place) : base + place;
    return record?.hasText ? "#" + new URLSearchParams({ document: record.number, q: fields.q, order: fields.order ?? "best" }) : "";
  }

  // What is known of the document of this number, or of a part with it; undefined where nothing is.
  async record(number) {
    const first = this.parts.get(number)?.first ?? number;
    const at = this.table.texts.findLastIndex(([begin]) => begin <= first);
    return at < 0 ? undefined : (await this.file(at)).get(first);
  }

  file(at) {
    if (!this.texts.has(at)) {
      const records = this.load({ name: this.table.texts[at][1] }).then((bytes) => {
        const rows = JSON.parse(new TextDecoder().decode(bytes));
        return new Map(rows.map((row) => [row[0], Object.fromEntries(RECORD.map((field, place) => [field, row[place]]))]));
      });
      // What could not be had may be there the next time.
      this.texts.set(at, records.catch((reason) => (this.texts.delete(at), Promise.reject(reason))));
    }
    return this.texts.get(at);
  }

  // A whole document, with what answers the query marked.
  async shown(fields) {
    const record = await this.record(Number(fields.document));
    if (!record?.hasText) return { fault: "there is no document of this number, or its text is not here", place: null };
    const plan = fields.q ? this.module.answer(`explain ${fields.q.replace(/[\t\n\r]/g, " ")}`) : "! ";
    const wanted = plan.startsWith("! ") ? null : new Wanted(plan);
    const body = record.body.replace(/\n+$/, "");
    const best = wanted?.bestLine(body) ?? null;
    return {
      title: record.title,
      kind: record.kind,
      fields: record.fields,
      lines: body.split("\n").map((line) => piecesOf(line, wanted ? wanted.spans(line) : [])),
      best: best === null ? 0 : best + 1,
      cut: record.isCut,
    };
  }
}

// The bytes that were packed by gzip.
async function unpacked(bytes) {
  const stream = new Blob([bytes]).stream().pipeThrough(new DecompressionStream("gzip"));
  return new Uint8Array(await new Response(stream).arrayBuffer());
}
