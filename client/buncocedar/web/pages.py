"""The pages: a form and answers, a document, the language. They need no scripts; `assets/page.js` makes them quicker to use."""

from __future__ import annotations

from typing import List, Mapping, NamedTuple, Optional, Tuple, Union
from urllib.parse import urlencode

from ..texts import marked
from ..tools.documents import shown_path
from .answers import Answer, Answers, Fault, Piece, Shown
from .markup import Markup, element, escaped, join

ORDERS = (("best", "best first"), ("newest", "newest first"))

LANGUAGE = (
    ("red fox", "documents with both words, in any place"),
    ('"red fox"', "the words side by side, in this order"),
    ("red OR fox", "one of them, or both"),
    ("fox NOT red", "the one without the other"),
    ("qui*", "words that begin so"),
    ("red NEAR/5 fox", "at most five places apart"),
    ("title:fox", "a word of the title"),
    ("name:x", "the document of this name"),
    ("value:20240101..20241231", "a number in this range, as a day"),
    ("(red OR blue) fox", "parentheses group"),
)

KEYS = (
    ("/", "to the search box"),
    ("↓ ↑ or j k", "to the next answer, and back"),
    ("Enter", "opens the answer"),
    ("Esc", "back to the search box"),
)



class Frame(NamedTuple):
    """What stands round the main part of a page: its name, where its files are, its policy where no server says that, and facts for
    its scripts."""

    name: str = "Buncocedar"
    home: str = "./"
    style: str = "./style.css"
    icon: str = "./icon.svg"
    search: str = "./opensearch.xml"
    scripts: Tuple[str, ...] = ("./http.js", "./page.js")
    policy: str = ""
    data: Mapping[str, str] = {}


FRAME = Frame()


def address(path: str, **fields: Optional[str]) -> str:
    """The address of a page, relative to the one that has it, so that it holds behind another web server too."""
    given = {key: value for key, value in fields.items() if value}
    return f"./{path}?{urlencode(given)}" if given else f"./{path}"


# --- The frame.


def page(title: str, query: str, order: str, *content: str, frame: Frame = FRAME) -> bytes:
    """A whole page, in UTF-8."""
    policy = [element("meta", {"http-equiv": "Content-Security-Policy", "content": frame.policy})] if frame.policy else []
    search = {"rel": "search", "href": frame.search, "type": "application/opensearchdescription+xml", "title": frame.name}
    head = element(
        "head",
        None,
        element("meta", {"charset": "utf-8"}),
        *policy,
        element("meta", {"name": "viewport", "content": "width=device-width, initial-scale=1"}),
        element("meta", {"name": "color-scheme", "content": "light dark"}),
        element("meta", {"name": "referrer", "content": "no-referrer"}),
        element("title", None, title),
        element("link", {"rel": "stylesheet", "href": frame.style}),
        element("link", {"rel": "icon", "href": frame.icon, "type": "image/svg+xml"}),
        *([element("link", search)] if frame.search else []),
        *(element("script", {"src": script, "defer": ""}) for script in frame.scripts),
    )
    main = element("main", {"id": "main", "aria-live": "polite"}, *content)
    body = element("body", frame.data, form(query, order, frame), main, help_panel())
    return f"<!DOCTYPE html>\n{element('html', {'lang': 'en'}, head, body)}\n".encode()


def form(query: str, order: str, frame: Frame = FRAME) -> Markup:
    choices = [
        element("option", {"value": value, "selected": "" if value == order else None}, text) for value, text in ORDERS
    ]
    return element(
        "form",
        {"id": "form", "action": frame.home, "method": "get", "role": "search"},
        element("a", {"href": frame.home, "class": "home"}, frame.name),
        element(
            "input",
            {
                "id": "q",
                "name": "q",
                "type": "search",
                "value": query or None,
                "placeholder": "words, \"a phrase\", qui*, title:fox",
                "aria-label": "Search",
                "autocomplete": "off",
                "autocapitalize": "none",
                "spellcheck": "false",
                "autofocus": "",
                "maxlength": "2000",
            },
        ),
        element("select", {"id": "order", "name": "order", "aria-label": "Order"}, *choices),
        element("button", None, "Search"),
    )


def help_panel() -> Markup:
    rows = [element("tr", None, element("td", None, element("code", None, code)), element("td", None, about)) for code, about in LANGUAGE]
    keys = [element("tr", None, element("td", None, element("kbd", None, key)), element("td", None, about)) for key, about in KEYS]
    return element(
        "details",
        {"id": "help"},
        element("summary", None, "What can be asked"),
        element("table", None, *rows),
        element(
            "p",
            None,
            "A word in small letters finds every spelling; one with a capital finds only itself. Words are not stemmed: ",
            element("code", None, "fox*"),
            " finds foxes, too. ",
            element("code", None, "AND"),
            ", ",
            element("code", None, "OR"),
            " and ",
            element("code", None, "NOT"),
            " are written in capitals.",
        ),
        element("table", {"class": "keys"}, *keys),
    )


# --- Answers.


def pieces(found: List[Piece]) -> Markup:
    return join(element("mark", None, piece.text) if piece.is_marked else escaped(piece.text) for piece in found)


def link_of(row: Answer, query: str) -> str:
    """The address of the page of a document that was found."""
    return address("document", name=row.name, q=query) + (f"#L{row.line}" if row.line > 1 else "")


def facts_of_answer(row: Answer) -> List[str]:
    """What is known of a document that was found: of when and whose it is, or where it stands, or its name."""
    where = shown_path(row.path) if row.kind == "folder" else ""
    facts = [text for text in (row.day, row.writer, where) if text]
    return facts or ([row.name] if row.title != row.name else [])


def answer(row: Answer, query: str) -> Markup:
    """An answer, as `assets/page.js` makes it, too: its title, which leads to the document, what is known of it, and its snippet."""
    link = element("a", {"href": link_of(row, query)}, row.title)
    facts = facts_of_answer(row) + ([] if row.score is None else [f"score {row.score:,}"])
    lines = [element("h2", None, link), element("p", {"class": "facts"}, " · ".join(facts))]
    if row.snippet:
        front = f"{row.line}: " if row.kind == "folder" else ""
        lines.append(element("p", {"class": "snippet"}, element("span", {"class": "number"}, front), pieces(row.snippet)))
    return element("li", {"class": "answer"}, *lines)


def count(number: int, word: str) -> str:
    return f"{number:,} {word}" if number == 1 else f"{number:,} {word}s"


def answers(found: Answers) -> bytes:
    """The page of some answers."""
    content = [element("p", {"class": "count"}, count(found.found, "document"))]
    content += [element("p", {"class": "hint"}, hint) for hint in found.hints]
    if found.rows:
        content.append(element("ol", {"class": "answers"}, *(answer(row, found.query) for row in found.rows)))
    else:
        content.append(element("p", None, "No document has that."))
    if found.following:
        following = address("", q=found.query, order=found.order, begin=found.following)
        content.append(element("p", None, element("a", {"href": following, "rel": "next", "class": "next"}, "Next page")))
    return page(f"{found.query} - Buncocedar", found.query, found.order, *content)


def fault(found: Fault, order: str) -> bytes:
    """The page of a query that has a fault, which is marked under its place."""
    content = [element("p", {"class": "fault"}, found.why)]
    if found.place is not None:
        content.append(element("pre", {"class": "fault"}, marked(found.query, found.place)))
    return page("Buncocedar", found.query, order, *content)


def welcome(documents: int, words: int, order: str) -> bytes:
    """The page without a query."""
    return page("Buncocedar", "", order, element("p", {"class": "count"}, f"{count(documents, 'document')}, {count(words, 'word')}"))


def failure(why: str, query: str = "") -> bytes:
    """The page that says why there is no other one."""
    return page("Buncocedar", query, "best", element("p", {"class": "fault"}, why))


# --- Documents.


def field(name: str, value: Union[str, Markup]) -> Markup:
    return element("tr", None, element("th", None, name), element("td", None, value))


def facts_of(shown: Shown) -> Markup:
    """What is known of a document, as a table."""
    rows = [field(name, value) for name, value in shown.fields]
    rows += [field("Attached", name) for name in shown.attached]
    rows += [field("Answers", element("a", {"href": address("document", name=link.name)}, link.about)) for link in shown.linked]
    if shown.thread:
        rows.append(field("Thread", element("a", {"href": address("", q=shown.thread, order="newest")}, shown.thread)))
    rows.append(field("Stands in", shown_path(shown.path)))
    raw = element("a", {"href": address("raw", name=shown.name)}, "as it stands")
    rows.append(field("Text", raw))
    return element("table", {"class": "fields"}, *rows)


def document(shown: Shown, query: str) -> bytes:
    """The page of a whole document, each line of which has a place of its own: `#L12`."""
    lines = [
        element("span", {"id": f"L{number}", "class": "line best" if number == shown.best else "line"}, pieces(line), "\n")
        for number, line in enumerate(shown.lines, 1)
    ]
    kind = "numbered" if shown.kind == "folder" else "message"
    content = [element("h1", None, shown.title), facts_of(shown), element("pre", {"class": f"text {kind}"}, *lines)]
    if shown.cut:
        content.append(element("p", {"class": "fault"}, "It has more lines than are shown here."))
    if shown.best:
        content.insert(2, element("p", None, element("a", {"href": f"#L{shown.best}"}, "To the line that answers best")))
    return page(f"{shown.title} - Buncocedar", query, "best", *content)
