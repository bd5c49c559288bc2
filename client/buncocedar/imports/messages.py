"""What an import makes of a message: its document, and the text of that."""

# The date is that of the Date field, in the sender's own time: what a reader sees there. A field that is no date is taken as
# it stands. A message without one has the date at which it was received last.
#
# What an archive notes of a message, as that it is unread, is no part of what it is known by: copies in two folders are one
# message. Where the notes are others, the message is brought in again in its own place.
#
# The import's own process reads the header alone, for the name and the stamp; another one reads the rest.

import datetime
import email.utils
import functools

from ..document import Document, Text, Unfit
from .archives import raw_at
from .fields import fields_of, id_of, notes_of, thread_of
from .header import decoded, heading, parted
from .mime import Part, one_text, parsed, texts_in
from .stamps import digest, place_of

# What mail readers and archives write into a header.
NOTED = frozenset(
    b"status x-status x-keywords x-uid x-uidl x-imap x-imapbase x-label x-tuid x-gmail-labels x-evolution content-length lines".split()
)
NOTED_FRONTS = (b"x-evolution-", b"x-kmail-", b"x-mozilla-")
# The lines of the header that are searched.
SHOWN = ("From", "Reply-To", "Sender", "To", "Cc", "Bcc", "List-Id")
# What goes into a stamp besides the message: another one, and all messages are made anew once.
FORM = b"fields, and all texts in a message\n"
WITHOUT_ATTACHED = b"without attached texts\n"
FORMER = (b"fields and attached texts\n", b"parts and forms\n", b"")
DATE_LIMIT = 256  # characters of a field that are looked at for a date


def date_of(text):
    """A message's date as it is written there, with a number that ranges of values find: `2024-01-31 20240131`."""
    try:
        # Of a long row of digits a number would take quadratic time.
        day = datetime.date(*email.utils.parsedate_tz(text[:DATE_LIMIT])[:3]).isoformat()
    except (TypeError, ValueError, IndexError, OverflowError):
        return text
    return f"{day} {day.replace('-', '')}"


def moment_of(header):
    """When a message was sent, or was received last, in seconds since 1970, None where that is not known."""
    try:
        return int(email.utils.mktime_tz(email.utils.parsedate_tz(decoded(next(iter(sent_at(header)), b""))[:DATE_LIMIT])))
    except (TypeError, ValueError, IndexError, OverflowError):
        return None


def sent_at(header):
    """The field that says when a message was sent, or was received last; none where it has neither."""
    dates = header.values(b"date")[:1]
    return dates or [data.rpartition(b";")[2].strip() for data in header.values(b"received")[:1] if b";" in data]


def head_of(header, attached):
    """The lines of a message's header that are searched: who wrote it to whom, when, and what is attached."""
    lines = [f"{field}: {heading(data)}" for field in SHOWN for data in header.values(field.lower().encode())]
    lines += [f"Date: {date_of(decoded(data))}" for data in sent_at(header)]
    lines += [f"Attachment: {name}" for name in attached]
    return "\n".join(lines)


def is_noted(name):
    """Whether the field of this name is no part of a message, but what an archive notes of it."""
    return name in NOTED or name.startswith(NOTED_FRONTS)


class Message:
    """A message: its header, its body, its digest, and the name that it wants. One without Message-ID is named by its digest."""

    def __init__(self, raw):
        self.header, self.body = parted(raw)
        self.id = id_of(self.header)

    @functools.cached_property
    def stamp(self):
        kept = b"".join(field for name, field in zip(self.header.names, self.header.fields) if not is_noted(name))
        # The empty line before the next message is there only when there is a next one.
        return digest(kept + b"\n" + self.body.rstrip(b"\r\n"))

    @property
    def wanted(self):
        return decoded(self.id) or f"message-{self.stamp}"

    @property
    def thread(self):
        """The word by which the messages of its thread are found."""
        return f"thread:{thread_of(self.header, self.id or self.wanted.encode())}"

    def text(self, attached=True, notes=""):
        """What is searched and shown of it. `notes` are the words for what its archive notes of it."""
        message = Part(parsed(self.header, self.body))
        try:
            parts, texts = list(message.walk()), texts_in(message, attached)
        except RecursionError:
            # It is nested too deep: its body is one text.
            message = Part(one_text(self.body))
            parts = texts = [message]
        shown = [text.text for text in texts]
        head = head_of(self.header, filter(None, (part.file_name for part in parts)))
        terms = " ".join(filter(None, (self.thread, fields_of(self.header, parts), notes)))
        body = "\n".join(text for text, _ in shown)
        beyond = sum(beyond for _, beyond in shown)
        return Text(heading(self.header.value(b"subject")), body, beyond, head, terms, moment_of(self.header))


def text_from(raw, attached, notes):
    """The text of a message from its bytes: what a document of mail is loaded by."""
    return Message(raw).text(attached, notes)


def read(found):
    """The text of a message that was brought in, as `bunco find` shows it."""
    message = Message(raw_at(found))
    if not message.header.fields:
        raise Unfit("it has moved since it was brought in: run bunco mail again")
    return message.text()


# --- Documents.


def raised(fault):
    """Loads nothing, and says why."""
    raise fault


def form_of(attached):
    """What goes into the stamps of messages, besides them."""
    return FORM if attached else FORM + WITHOUT_ATTACHED


def document_of(entry, attached=True):
    """The document of a message, None where it is nothing but blanks."""
    raw = entry.raw
    path = place_of(entry.place).path
    if isinstance(raw, Unfit):
        return Document(path or ".", entry.place.encode(), functools.partial(raised, raw), entry.place)
    message = Message(raw)
    if message.header.fields:
        stamp = message.stamp.encode()
        notes = notes_of(message.header, path)
        load = functools.partial(text_from, raw, attached, notes)
        former = tuple(form + stamp for form in FORMER)
        return Document(message.wanted, form_of(attached) + stamp, load, entry.place, former=former, mark=entry.mark, notes=notes, size=len(raw))
    if raw.strip():
        where = entry.place.rpartition("@")[2].partition("+")[0] or "0"
        fault = Unfit(f"it has no header (at byte {where})")
        return Document(path or "text between messages", raw, functools.partial(raised, fault), entry.place)
    return None
