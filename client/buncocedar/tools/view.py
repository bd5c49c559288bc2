"""How answers are written: rows, snippets, whole documents, paths, and objects for other programs."""

import os
import sys
from typing import List, NamedTuple

from ..terminal import NAME, PLACE, Paint, linked, printable, wants_colour
from .documents import Places, about, day_of, edit, head_fields, shown_path, text_at, thread_of, whole_lines

CONTEXT_COLUMNS = 100
WRITER_COLUMNS = 20
NOT_KNOWN = "where it was found is not known"
LISTS = {"From": "from", "To": "to", "Cc": "cc", "Attachment": "attachments"}  # of a message's head, for other programs


class Shown(NamedTuple):
    """The line of a document that is shown, with those around it; `number` is its own, counted from 1."""

    number: int
    lines: list  # of (number, text)


def written_by(fields):
    """Who has written a message: the name, or the address where there is none."""
    writer = fields.get("From", [""])[0]
    name = writer.partition("<")[0].strip(' "')
    return name or writer.strip("<>")


def date_of_file(path):
    """The day of a file's time, where it is still there."""
    import datetime

    try:
        return {"date": datetime.date.fromtimestamp(os.stat(path).st_mtime).isoformat()}
    except (OSError, ValueError, OverflowError):
        return {}


def described_head(text):
    """What the head of a message or a package says, each field a list; the day and the thread are texts."""
    fields = head_fields(text)
    known = {name: fields[field] for field, name in LISTS.items() if field in fields}
    single = {"date": day_of(fields), "thread": thread_of(text)}
    return {**known, **{name: value for name, value in single.items() if value}}


class View:
    """How answers are written; `wanted` is what the documents of the last query are looked through for, where that is needed."""

    def __init__(self, options, places: Places):
        self.options = options
        self.places = places
        self.paint = Paint(wants_colour(options.color))
        self.terminal = sys.stdout.isatty()
        self.about = self.terminal if options.about is None else options.about
        self.wanted = None
        self.path = None
        self.leaves_out = False
        self.chosen: List[str] = []  # the names of the documents that are to be edited

    def needs_wanted(self):
        options = self.options
        return self.about or options.context or options.show or options.edit or options.grep

    def has_rows_alone(self):
        """Whether nothing but what other programs take is written."""
        options = self.options
        return options.json or options.paths or options.names or options.show or options.edit or options.grep

    def clean(self, text):
        """The text for where it is written: a terminal is not to be steered by it."""
        return printable(text).replace("\n", "\ufffd") if self.terminal else text.replace("\n", " ")

    def row(self, number, name, score=None):
        """Writes one document."""
        options = self.options
        if options.json:
            import json

            self.write(json.dumps({**self.described(number, name), **({} if score is None else {"score": score})}))
        elif options.paths:
            self.show_path(name)
        elif options.names:
            self.write(self.given(name))
        elif options.show:
            self.show(name)
        elif options.edit:
            self.chosen.append(name)
        elif options.grep:
            self.grep(name)
        else:
            bare = f"{number} {self.paint(NAME, self.clean(name))}{'' if score is None else f' {score}'}"
            self.write(self.described_row(number, name) or bare if self.about else bare)
            if options.context:
                self.context(name)

    def described_row(self, number, name):
        """A row that says what a document is, for who reads it: empty where that is not known."""
        found = self.places.found(name)
        text = text_at(found) if found else None
        if text is None or isinstance(text, str):
            return f"{number} {self.clean(name)} ({self.clean(text)})" if text else ""
        if found.kind == "folder":
            shown = self.best(text)
            path = self.link(found, self.paint(PLACE, self.clean(shown_path(found.path))))
            line = next((line for at, line in shown.lines if at == shown.number), "") if shown else ""
            return f"{number} {path}{f':{shown.number}: {self.marked(line)}' if shown else ''}"
        fields = head_fields(text)
        title = self.marked(text.title or name)
        if found.kind == "mail":
            writer = self.clean(written_by(fields))[:WRITER_COLUMNS]
            return f"{number} {day_of(fields):10}  {writer:{WRITER_COLUMNS}}  {self.link(found, title)}"
        return f"{number} {self.paint(NAME, self.clean(name))}  {title}"

    def link(self, found, text):
        """The text, on a terminal as a link to the file, where the document is all of it."""
        is_shown = self.terminal and self.paint.on and os.environ.get("TERM") != "dumb"
        return linked(text, found.path) if is_shown and found.begin is None else text

    def grep(self, name):
        """Writes each line of a file that answers as PATH:LINE:TEXT, as editors and grep have it."""
        found = self.places.found(name)
        if found is None or found.kind != "folder":
            self.leave_out(name)
            return
        text = text_at(found)
        if isinstance(text, str):
            print(f"find: {name}: {text}", file=sys.stderr)
            return
        lines = text.body.split("\n")
        path = self.given(shown_path(found.path))
        for number in self.wanted.all_lines(text.body):
            self.write(f"{path}:{number + 1}:{self.clean(lines[number])}")

    def leave_out(self, name):
        """Says once that documents are left out which are no files of their own."""
        if not self.leaves_out:
            self.leaves_out = True
            print(f"find: {name}: it is no file of its own, and left out, as all such are", file=sys.stderr)

    def show_path(self, name):
        """Writes the file in which a document stands, once for those that stand side by side."""
        found = self.places.found(name)
        if found is None:
            print(f"find: {name}: {NOT_KNOWN}", file=sys.stderr)
        elif found.path != self.path:
            self.path = found.path
            self.write(self.given(shown_path(found.path)))

    def given(self, text):
        """A path or a name as it is written: behind a NUL as it is."""
        return text if self.options.null else self.clean(text)

    def write(self, text):
        sys.stdout.write(text + ("\0" if self.options.null else "\n"))

    # -- Snippets.

    def best(self, text):
        """The line of a document's text that answers best, with those around it; None where no line has a word."""
        lines = [*text.head.split("\n"), *text.body.split("\n")] if text.head else text.body.split("\n")
        at = self.wanted.best_line(lines)
        if at is None:
            return None
        around = self.options.around
        numbers = range(max(0, at - around), min(len(lines), at + around + 1))
        return Shown(at + 1, [(number + 1, " ".join(lines[number].split())) for number in numbers])

    def context(self, name):
        found = self.places.found(name)
        if found is None:
            return
        path = self.paint(PLACE, self.clean(shown_path(found.path)))
        text = text_at(found)
        if isinstance(text, str):
            print(f"    {path} ({self.clean(text)})")
            return
        shown = self.best(text)
        if found.kind != "folder":
            print(f"    {path}: {self.titled(about(text))}")
        elif shown is None:
            print(f"    {path}")
        for number, line in shown.lines if shown else []:
            sign = ":" if number == shown.number else "-"
            front = f"{path}{sign}{number}{sign} " if found.kind == "folder" else ""
            print(f"    {front}{self.marked(line)}")

    def titled(self, line):
        """The line that says what a document is, from its front on."""
        line = self.clean(line)
        part = line[:CONTEXT_COLUMNS]
        return f"{self.paint.marked(part, self.wanted.spans(part))}{'...' if len(line) > len(part) else ''}"

    def marked(self, line):
        """A line with what was found in it marked; of a long one the part round the first of that."""
        line = self.clean(line)
        spans = self.wanted.spans(line)
        if len(line) <= CONTEXT_COLUMNS:
            return self.paint.marked(line, spans)
        begin = max(0, (spans[0][0] if spans else 0) - CONTEXT_COLUMNS // 3)
        part = line[begin : begin + CONTEXT_COLUMNS]
        shown = self.paint.marked(part, self.wanted.spans(part))
        return f"{'...' if begin else ''}{shown}{'...' if begin + CONTEXT_COLUMNS < len(line) else ''}"

    def described(self, number, name):
        """What is known of an answer, for another program."""
        known = {"number": number, "name": name}
        found = self.places.found(name)
        if found is None:
            return known
        known.update(kind=found.kind, path=found.path)
        if found.begin is not None:
            known.update(begin=found.begin, length=found.length)
        if found.kind == "folder" and not self.options.context:
            # What is known of a file is known without reading it.
            return {**known, "title": os.path.basename(found.path), **date_of_file(found.path)}
        text = text_at(found)
        return {**known, "fault": text} if isinstance(text, str) else {**known, **self.described_text(found, text)}

    def described_text(self, found, text):
        """What is known of a document by its text."""
        known = {"title": text.title, **(date_of_file(found.path) if found.kind == "folder" else described_head(text))}
        shown = self.best(text) if self.options.context else None
        if shown:
            known.update(line=shown.number, text="\n".join(line for _, line in shown.lines))
        return known

    # -- Whole documents.

    def document(self, name):
        """Where a document was found and its text, or None where it says why it can't be read."""
        found = self.places.found(name)
        text = text_at(found) if found else NOT_KNOWN
        if isinstance(text, str):
            print(f"find: {name}: {text}", file=sys.stderr)
            return None
        return found, text

    def show(self, name):
        """Writes a document as it was read, and answers whether it could be."""
        document = self.document(name)
        for line in whole_lines(*document) if document else []:
            line = printable(line) if self.terminal else line
            print(self.paint.marked(line, self.wanted.spans(line) if self.wanted and self.paint.on else []))
        return document is not None

    def edit(self, name):
        """Opens a document in the user's editor at the line that answers best, and answers whether that went well."""
        document = self.document(name)
        if document is None:
            return False
        line = self.wanted.best_line(whole_lines(*document)) if self.wanted else None
        try:
            status = edit(name, *document, 1 if line is None else line + 1)
        except (OSError, ValueError) as error:
            print(f"find: the editor cannot be started: {error}", file=sys.stderr)
            return False
        if status:
            print(f"find: the editor ended with status {status}", file=sys.stderr)
        return status == 0
