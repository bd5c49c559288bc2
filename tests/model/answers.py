"""Answers command lines over documents by trying each of them, and spells queries and the order in which their tests are
loaded, by docs/QUERIES.md and docs/FORMAT.md and by nothing of the program's. Texts are ASCII.

A query is a tuple: ("word", w), ("phrase", [w, ..]), ("prefix", stem), ("name", n), ("near", k, side, side), ("title", atom),
("value", low, high), ("and", [q, ..]), ("or", [q, ..]), ("not", q). A test is ("is", term) or ("begins", term).
"""

import re

NUMBERS = 2**32
LEVELS = 32
CURSORS = 64
TOO_LONG = "x" * 129  # for a word that is too long to be found
DUMPED_BYTES = 262_143  # of a line that a dump gives, at most
ATOMS = ("word", "phrase", "prefix", "name", "near", "title")
END = ("is", b"D")
TITLE_END = ("is", b"T")
NUMBER = re.compile(r"0|[1-9][0-9]{0,9}", re.ASCII)
# letters are joined by one of `:.'`, and digits by one of `,;.'`
RUN = re.compile(r"(?:\w|(?<=[A-Za-z])[:.'](?=[A-Za-z])|(?<=[0-9])[,;.'](?=[0-9]))+", re.ASCII)


# ---- documents


def words_of(text):
    """The words of an ASCII text."""
    return [run for run in RUN.findall(text) if re.search("[A-Za-z0-9]", run)]


def range_term(level, prefix):
    """The term of the numbers whose quotient by 2 ** level is the prefix."""
    return b"X\xff" + bytes([level]) + prefix.to_bytes(4, "big")


def range_terms(word):
    """The terms by which a word is found as a number, one of each level; none of a word that is no number."""
    if not NUMBER.fullmatch(word) or int(word) >= NUMBERS:
        return []
    return [range_term(level, int(word) >> level) for level in range(LEVELS + 1)]


def spellings(word):
    """The terms of a word's folding and of its spelling, where the two differ."""
    folded = [b"W" + word.lower().encode()]
    return folded if word == word.lower() else folded + [b"X" + word.encode()]


def cell_of(word):
    """The terms of a word."""
    return [] if len(word) > 128 else spellings(word) + range_terms(word)


def cells_of(name, title, body):
    """The terms of each cell of a document."""
    title, body = ([cell_of(word) for word in words_of(text)] for text in (title, body))
    return [[b"N" + name.encode(), b"S"], *title, [b"T"], *body, [b"D"]]


def meets(test, term):
    kind, wanted = test
    return term == wanted if kind == "is" else term.startswith(wanted)


class Document:
    """A document: its number, its name, how many words it has, and for each term where it stands."""

    def __init__(self, number, name, title, body):
        self.number, self.name = number, name
        self.cells = cells_of(name, title, body)
        self.first, self.last = 0, len(self.cells) - 1
        self.words = len(self.cells) - 3
        self.lists = {}
        for place, terms in enumerate(self.cells):
            for term in terms:
                self.lists.setdefault(term, []).append(place)

    def places(self, test):
        """The places whose terms meet a test."""
        return {place for term, places in self.lists.items() if meets(test, term) for place in places}

    def terms(self, kind):
        """The terms of a kind, each with where it stands, by places."""
        return sorted((place, term) for term, places in self.lists.items() if term.startswith(kind) for place in places)


def line_again(document):
    """The line that adds a document with the folded words of this one, or none where its words would not be the same."""
    ends, first, last = document.places(TITLE_END), document.first, document.last
    try:
        words = {place: term[1:].decode() for place, term in document.terms(b"W")}
    except UnicodeDecodeError:
        return None
    if len(ends) != 1 or ends & {first, last} or len(words) < len(document.terms(b"W")):
        return None
    (end,) = ends
    title, body = (" ".join(words.get(place, TOO_LONG) for place in part) for part in (range(first + 1, end), range(end + 1, last)))
    line = f"add {document.name}\t{title}\t{body}"
    again = Document(document.number, document.name, title, body)
    alike = again.last == last - first and again.places(TITLE_END) == {end - first}
    alike = alike and again.terms(b"W") == [(place - first, term) for place, term in document.terms(b"W")]
    return line if alike and "\t" not in title and len(line) <= DUMPED_BYTES else None


# ---- queries


def test_of(word):
    return ("is", spellings(word)[-1])


def cover(low, high):
    """The terms of the ranges that cover the numbers from one to another: the greatest that begins at the first, and so on behind it."""
    terms = []
    while low <= high:
        level = max(k for k in range(LEVELS + 1) if low % 2**k == 0 and low + 2**k - 1 <= high)
        terms.append(range_term(level, low >> level))
        low += 2**level
    return terms


def tests_of(atom):
    """The tests of an atom, in order."""
    kind = atom[0]
    if kind == "phrase":
        return [test_of(word) for word in atom[1]]
    if kind == "word":
        return [test_of(atom[1])]
    if kind == "prefix":
        return [("begins", spellings(atom[1])[-1])]
    if kind == "name":
        return [("is", b"N" + atom[1].encode())]
    if kind == "near":
        return tests_of(atom[2]) + tests_of(atom[3])
    return tests_of(atom[1]) + [TITLE_END]


def loads(query):
    """The tests of a query in the order in which they are loaded; a test that was loaded before stays in it."""
    kind = query[0]
    if kind in ATOMS:
        return [END] + tests_of(query)
    if kind == "value":
        return [test for term in cover(query[1], query[2]) for test in (END, ("is", term))]
    if kind == "not":
        return [END] + loads(query[1])
    if kind == "or":
        return [test for member in query[1] for test in loads(member)]
    atoms = [member for member in query[1] if member[0] in ATOMS]
    found = [END] + [test for atom in atoms for test in tests_of(atom)] if atoms else []
    return found + [test for member in query[1] if member[0] not in ATOMS for test in loads(member)]


def uses(query):
    """The tests by which documents are ranked, in order, each with whether it is asked for in the title: those under no NOT."""
    kind = query[0]
    if kind in ("not", "value"):
        return []
    if kind in ("and", "or"):
        return [use for member in query[1] for use in uses(member)]
    return [(True, test) for test in tests_of(query[1])] if kind == "title" else [(False, test) for test in tests_of(query)]


def score(query, document):
    """How often a document has what is asked for: four times for each place before a title's end, and behind all of them, of what is asked
    for in the title, no time."""
    end = max(document.places(TITLE_END), default=-1)
    return sum(4 if place < end else not in_title for in_title, test in uses(query) for place in document.places(test))


def last_places(atom, places):
    """Of each solution of an atom without `title:`, the place of its last word."""
    of_tests = [places(test) for test in tests_of(atom)]
    if atom[0] == "near":
        return [max(a, b) for a in of_tests[0] for b in of_tests[1] if abs(a - b) <= atom[1]]
    many = len(of_tests)
    return [start + many - 1 for start in of_tests[0] if all(start + i in of_tests[i] for i in range(many))]


def matches(query, places):
    """Whether a document matches a query, by the places of a test in it."""
    kind = query[0]
    if kind == "not":
        return not matches(query[1], places)
    if kind == "and":
        return all(matches(member, places) for member in query[1])
    if kind == "or":
        return any(matches(member, places) for member in query[1])
    if kind == "value":
        return any(places(("is", term)) for term in cover(query[1], query[2]))
    if kind == "title":
        return any(place < end for place in last_places(query[1], places) for end in places(TITLE_END))
    return bool(last_places(query, places))


def spelled(query):
    """The text of a query."""
    kind = query[0]
    if kind == "word":
        return query[1]
    if kind == "phrase":
        return '"' + " ".join(query[1]) + '"'
    if kind == "prefix":
        return query[1] + "*"
    if kind == "name":
        return "name:" + query[1]
    if kind == "value":
        return f"value:{query[1]}..{query[2]}"
    if kind == "near":
        return f"{spelled(query[2])} NEAR/{query[1]} {spelled(query[3])}"
    if kind == "title":
        return "title:" + spelled(query[1])
    if kind == "not":
        return "NOT " + member_of(query[1])
    return (" " if kind == "and" else " OR ").join(member_of(member) for member in query[1])


def member_of(query):
    """A query as a member of another; a name before a parenthesis wants a blank."""
    return f"( {spelled(query)} )" if query[0] in ("and", "or") else spelled(query)


# ---- lines


class Machine:
    """The documents by their rising numbers, the next number and the open cursors; and the entry that the last line made, if any."""

    def __init__(self, queries, documents=(), next_number=1):
        self.queries = {spelled(query): query for query in queries}
        self.documents, self.names = {}, {}
        for document in documents:
            self.put(document)
        self.next_number = next_number
        self.cursors = {}
        self.entry = None

    def put(self, document):
        self.documents[document.number] = document
        self.names[document.name] = document.number

    def leave_out(self, number):
        del self.names[self.documents.pop(number).name]

    def reply(self, line):
        """The reply to a line of a right form."""
        self.entry = None
        word, _, rest = line.partition(" ")
        return getattr(self, "answer_" + word)(rest)

    def load(self, tests):
        """Is told which lists a line loads, in order."""

    def matching(self, query):
        """The documents that match."""
        self.load(loads(query))
        return [document for document in self.documents.values() if matches(query, document.places)]

    def answers(self, query):
        """The documents that match, as lines."""
        return [f"{document.number} {document.name}\n" for document in self.matching(query)]

    def answer_add(self, rest):
        name, title, body = rest.split("\t", 2)
        number, before = self.next_number, self.names.get(name)
        if number == NUMBERS:
            return "! no numbers left\n"
        if before is not None:
            self.leave_out(before)
        self.put(Document(number, name, title, body))
        self.next_number += 1
        self.entry = ("add", name, title, body) if before is None else ("replace", before, name, title, body)
        return f"added {number}\n" if before is None else f"replaced {before} by {number}\n"

    def answer_delete(self, name):
        number = self.names.get(name)
        if number is None:
            return "! no such document\n"
        self.leave_out(number)
        self.entry = ("delete", number)
        return f"deleted {number}\n"

    def answer_search(self, text):
        answers = self.answers(self.queries[text])
        return "".join(answers) + f"found {len(answers)}\n"

    def answer_top(self, rest):
        count, text = rest.split(" ", 1)
        query = self.queries[text]
        found = self.matching(query)
        self.load([TITLE_END])
        best = sorted((-score(query, document), document.number, document.name) for document in found)[: int(count)]
        return "".join(f"{number} {name} {-points}\n" for points, number, name in best) + f"found {len(found)}\n"

    def answer_dump(self, _):
        self.load([END, TITLE_END, ("begins", b"W")])
        lines = [(document, line_again(document)) for document in self.documents.values()]
        given = [f"skipped {document.number} {document.name}\n" if line is None else f"{line}\n" for document, line in lines]
        return "".join(given) + f"dumped {sum(line is not None for _, line in lines)}\n"

    def answer_count(self, text):
        return f"found {len(self.answers(self.queries[text]))}\n"

    def answer_open(self, text):
        number = next((n for n in range(1, CURSORS + 1) if n not in self.cursors), None)
        if number is None:
            return "! too many cursors\n"
        self.cursors[number] = self.answers(self.queries[text])
        return f"cursor {number}\n"

    def answer_fetch(self, rest):
        cursor, count = map(int, rest.split(" "))
        if cursor not in self.cursors:
            return "! no such cursor\n"
        page, left = self.cursors[cursor][:count], self.cursors[cursor][count:]
        self.cursors[cursor] = left
        return "".join(page) + ("more\n" if left else "end\n")

    def answer_close(self, rest):
        if self.cursors.pop(int(rest), None) is None:
            return "! no such cursor\n"
        return f"closed {rest}\n"

    def answer_stats(self, _):
        words = sum(document.words for document in self.documents.values())
        return f"documents {len(self.documents)} words {words} next {self.next_number}\n"

    def answer_flush(self, _):
        return "ok\n"

    answer_merge = answer_step = answer_flush
