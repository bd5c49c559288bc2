// What of a text answers a query: the words and phrases of its plan, and where they stand, as `tools/matching.py` finds them.

const WORD = "[\\p{L}\\p{N}_]";
const IN_A_LINE = "[^\\p{L}\\p{N}_\\n]+"; // between two words of a phrase
const OVER_LINES = "[^\\p{L}\\p{N}_]+";

// --- The plan of a query.

// A word of a query: whether more may follow it, and whether each spelling with its folding will do.
function termOf(word) {
  return { text: word.slice(1).replace(/\*+$/, ""), openEnd: word.endsWith("*"), folded: word[0] === "W" };
}

// The terms of one node of a plan as phrases: two belong together where the bounds hold one right behind the other.
function joinedTerms(terms, bounds) {
  const phrases = [];
  for (const [number, term] of terms) {
    const before = number - 1;
    const isBehind = bounds.has(`x${before} <= x${number}-1`) && bounds.has(`x${number} <= x${before}+1`);
    if (terms.has(before) && isBehind) phrases[phrases.length - 1].push(term);
    else phrases.push([term]);
  }
  return phrases;
}

// The terms of a node, by the numbers of their variables.
function termsOf(node) {
  const words = node.split(" ").slice(2);
  return new Map(words.map((word, at) => [at + 1, word]).filter(([, word]) => /^[WX]./u.test(word)).map(([at, word]) => [at, termOf(word)]));
}

// The phrases that a plan looks for, each a list of terms, most of one; without those under a NOT.
function wantedPhrases(plan) {
  const phrases = [];
  let without = null;
  let terms = new Map();
  let bounds = new Set();
  for (const line of [...plan.split("\n").slice(1), "end"]) {
    const text = line.replace(/^ +/, "");
    const depth = line.length - text.length;
    if (/^[xp]/.test(text) && text.includes(" <= ")) {
      bounds.add(text);
      continue;
    }
    phrases.push(...joinedTerms(terms, bounds));
    terms = new Map();
    bounds = new Set();
    if (without !== null && depth <= without) without = null;
    if (without === null && text === "not") without = depth;
    if (without === null && text.startsWith("found ")) terms = termsOf(text);
  }
  return phrases;
}

// --- Texts.

// The full case folding of a character. Two steps up and down give it: U+1E9E is ß in small letters, and that SS in large ones. What
// has small letters alone, as Cherokee, and the i without a dot stay as they are.
function foldedCharacter(one) {
  return one === "\u0131" ? one : one.toLowerCase().toUpperCase().toLowerCase();
}

// The folded text, and of each of its units where the character that it came from begins and ends; null where that is the same place.
function folded(text) {
  if (/^[\0-\x7f]*$/.test(text)) return { text: text.toLowerCase(), begins: null, ends: null };
  const parts = [];
  const begins = [];
  const ends = [];
  let at = 0;
  for (const one of text) {
    const fold = foldedCharacter(one);
    parts.push(fold);
    for (let unit = 0; unit < fold.length; unit++) {
      begins.push(at);
      ends.push(at + one.length);
    }
    at += one.length;
  }
  return { text: parts.join(""), begins, ends };
}

const escaped = (text) => text.replace(/[\\^$.*+?()[\]{}|/]/g, "\\$&");

// What a phrase is looked for by: whether in the folded text, a pattern for the place where it may begin, and the text it begins with.
class Pattern {
  constructor(phrase, between) {
    const words = phrase.map((term) => escaped(term.text) + (term.openEnd ? `${WORD}*` : ""));
    this.folds = phrase.every((term) => term.folded);
    this.front = phrase[0].text;
    this.regular = new RegExp(`(?<!${WORD})${words.join(between)}(?!${WORD})`, "uy");
  }

  // The first match from a place on: where it begins and ends, or null.
  search(text, from) {
    for (let at = text.indexOf(this.front, from); at >= 0; at = text.indexOf(this.front, at + 1)) {
      this.regular.lastIndex = at;
      if (this.regular.test(text)) return [at, this.regular.lastIndex];
    }
    return null;
  }

  *all(text) {
    for (let found = this.search(text, 0); found; found = this.search(text, found[1])) yield found;
  }
}

// Where the patterns stand in a text: spans that rise and don't meet.
function spansOf(text, patterns) {
  const fold = folded(text);
  const spans = [];
  for (const pattern of patterns) {
    for (const [begin, end] of pattern.all(pattern.folds ? fold.text : text)) {
      spans.push(pattern.folds && fold.begins ? [fold.begins[begin], fold.ends[end - 1]] : [begin, end]);
    }
  }
  const apart = [];
  let last = 0;
  for (const [begin, end] of spans.sort((one, other) => one[0] - other[0] || one[1] - other[1])) {
    if (end <= last) continue;
    apart.push([Math.max(begin, last), end]);
    last = end;
  }
  return apart;
}

// How many lines end between two places of a text.
function lineEnds(text, from, to) {
  let count = 0;
  for (let at = text.indexOf("\n", from); at >= 0 && at < to; at = text.indexOf("\n", at + 1)) count++;
  return count;
}

// The numbers from 0 of the lines in which a pattern stands, as they rise, each once.
function* linesWith(text, pattern) {
  let at = 0;
  let number = 0;
  for (let found = pattern.search(text, 0); found; found = pattern.search(text, at)) {
    number += lineEnds(text, at, found[0]);
    yield number;
    const end = text.indexOf("\n", found[1]);
    if (end < 0) return;
    number++;
    at = end + 1;
  }
}

// The number from 0 of the first line that has most of the patterns, null where none has one.
function fullestLine(text, fold, patterns) {
  const met = new Map();
  for (const pattern of patterns) {
    for (const line of linesWith(pattern.folds ? fold : text, pattern)) met.set(line, (met.get(line) ?? 0) + 1);
  }
  let [best, at] = [0, null];
  for (const [line, count] of met) if (count > best || (count === best && line < at)) [best, at] = [count, line];
  return at;
}

// What the answers to a query are looked through for.
class Wanted {
  constructor(plan) {
    const phrases = wantedPhrases(plan);
    this.phrases = phrases.map((phrase) => new Pattern(phrase, IN_A_LINE));
    this.long = phrases.filter((phrase) => phrase.length > 1).map((phrase) => new Pattern(phrase, OVER_LINES));
    this.words = phrases.flat().map((term) => new Pattern([term], ""));
  }

  spans(text) {
    const spans = spansOf(text, this.phrases);
    return spans.length ? spans : spansOf(text, this.words);
  }

  // The number from 0 of the first line that has most of the phrases, or of their words; null where none has one.
  bestLine(text) {
    const fold = folded(text).text;
    return fullestLine(text, fold, this.phrases) ?? this.brokenPhrase(text, fold) ?? fullestLine(text, fold, this.words);
  }

  // The line in which the first phrase begins that goes on in the next.
  brokenPhrase(text, fold) {
    for (const pattern of this.long) {
      const searched = pattern.folds ? fold : text;
      const found = pattern.search(searched, 0);
      if (found) return lineEnds(searched, 0, found[0]);
    }
    return null;
  }
}

// --- Snippets.

const SNIPPET = 240; // characters of a snippet

// The text in pieces, each marked or not; the spans rise and don't meet.
function piecesOf(text, spans) {
  const pieces = [];
  let at = 0;
  for (const [begin, end] of spans) {
    pieces.push({ text: text.slice(at, begin), marked: false }, { text: text.slice(begin, end), marked: true });
    at = end;
  }
  return [...pieces, { text: text.slice(at), marked: false }].filter((piece) => piece.text);
}

// A line with what was looked for in it; of a long one the part round the first of that.
function snippetOf(line, wanted) {
  let text = line.trim().split(/\s+/u).join(" ");
  const characters = [...text];
  if (characters.length > SNIPPET) {
    const spans = wanted.spans(text);
    const first = spans.length ? [...text.slice(0, spans[0][0])].length : 0;
    const begin = Math.max(0, first - SNIPPET / 3);
    const end = begin + SNIPPET;
    text = `${begin ? "…" : ""}${characters.slice(begin, end).join("")}${end < characters.length ? "…" : ""}`;
  }
  return piecesOf(text, wanted.spans(text));
}

// The line of a document that answers best, counted from 1, and its snippet: of the body, or else of what stands above it.
function bestOf(record, wanted) {
  const at = wanted.bestLine(record.body);
  if (at !== null) return [at + 1, snippetOf(record.body.split("\n")[at], wanted)];
  const head = `${record.title}\n${record.head}`;
  const above = wanted.bestLine(head);
  const lines = above === null ? record.body.split("\n") : head.split("\n");
  return [1, snippetOf(lines[above ?? 0], wanted)];
}
