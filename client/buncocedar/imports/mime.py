"""The parts of a message and their texts, as the email package reads them."""

# A field with more than 64 parameters, for which the email package takes quadratic time, is left out. Where it gives up, the
# message is one text. A message in another's part is looked into, and so is what is signed inside of an S/MIME part; a message
# that is packed in base64 is not.
#
# The email package is given the fields of the content alone, since it looks for each of them in the whole header. A body that
# is not to be cut into parts goes by without it: it would take that line by line.

import email
import email.message
import email.policy
import functools
import re

from ..document import TEXT_LIMIT
from .cms import is_signed, signed_content
from .forms import text_of_card, text_of_html, without_line_ends
from .header import codec_of, decoded, heading, parted

# What the email package raises at parameters that contradict each other, and at charsets of no known form.
ODD = (LookupError, TypeError, ValueError)
META_CHARSET = re.compile(rb"(?i)<meta[^>]*charset\s*=\s*[\"']?(?!utf-?16|utf-?32)([\w:.-]+)")
META_LIMIT = 1024  # bytes of an HTML part in which its charset is looked for
PARAMETERS = 64  # how many a field may have: of more the email package takes quadratic time
CONTENT = b"content-"
WITH_PARTS = (b"multipart/", b"message/")
CARDS = ("calendar", "vcard", "x-vcard", "directory")
PACKED_BY_SMIME = ("pkcs7-mime", "x-pkcs7-mime")
# Parts that belong to a signature or to what is encrypted, and are no files that somebody has attached.
ENVELOPES = (*PACKED_BY_SMIME, "pkcs7-signature", "x-pkcs7-signature", "pgp-signature", "pgp-encrypted")
# What is said of a message that is attached to another one.
SAID = ("Subject", "From", "To", "Cc")
# Parts whose text is fields: what became of a message, and that it was read.
REPORTS = ("delivery-status", "disposition-notification")


class AsItStands(email.policy.Compat32):
    """Fields as they stand, where the email package would take bytes beyond ASCII for unknown ones."""

    def header_fetch_parse(self, name, value):
        return value


AS_IT_STANDS = AsItStands()


def parsed(header, body):
    """A message with its parts, as the email package reads it; as one text where that gives up. A field that it would take long for
    is left out.
    """
    said = [field for name, field in zip(header.names, header.fields) if name.startswith(CONTENT) and field.count(b";") <= PARAMETERS]
    try:
        if header.value(b"content-type").lower().startswith(WITH_PARTS):
            return email.message_from_bytes(b"".join(said) + b"\n" + body, policy=AS_IT_STANDS)
        message = email.message.Message(AS_IT_STANDS)
        for field in said:
            name, _, value = field.decode("ascii", "surrogateescape").partition(":")
            message[name.strip()] = " ".join(value.split())
        message.set_payload(body.decode("ascii", "surrogateescape"))
        return message
    except (*ODD, RecursionError):
        return one_text(body)


def one_text(body):
    """A message that is all one text."""
    return email.message_from_bytes(b"\n" + body, policy=AS_IT_STANDS)


class Part:
    """A part of a message, which may have parts of its own: what is asked of it is read once."""

    def __init__(self, message):
        self.message = message
        self.kind = message.get_content_type()
        self.main, _, self.sub = self.kind.partition("/")

    @functools.cached_property
    def parts(self):
        """The parts in it; what is signed inside of it is one."""
        if self.message.is_multipart():
            return list(map(Part, self.message.get_payload()))
        content = signed_content(self.payload) if self.sub in PACKED_BY_SMIME else None
        return [] if content is None else [Part(parsed(*parted(content)))]

    def walk(self):
        """It and all parts in it."""
        yield self
        for part in self.parts:
            yield from part.walk()

    @functools.cached_property
    def file_name(self):
        """The name of a file that is attached, empty where this is none."""
        try:
            name = self.message.get_filename()
            return heading(name.encode(errors="surrogateescape")) if name else ""
        except ODD:
            return ""

    def is_file(self):
        """Whether it is a file that somebody has attached."""
        return bool(self.file_name) and self.sub not in ENVELOPES

    def is_html(self):
        return self.sub.endswith("html")

    def is_plain(self):
        """Whether it is a plain text that says something."""
        return self.kind == "text/plain" and bool(self.text[0].strip())

    def secured(self):
        """How it is secured: "signed", "encrypted", or empty."""
        if self.kind in ("multipart/signed", "multipart/encrypted"):
            return self.sub
        if self.sub not in PACKED_BY_SMIME:
            return ""
        said = self.parameter("smime-type")
        if said == "certs-only":
            return ""
        return "signed" if said == "signed-data" or not said and is_signed(self.payload) else "encrypted"

    def parameter(self, name):
        """A parameter of its type, in lower case; empty where it has none."""
        try:
            value = self.message.get_param(name, "")
        except ODD:
            return ""
        return value.lower() if isinstance(value, str) else ""

    @functools.cached_property
    def payload(self):
        """Its bytes as they were before they were encoded for the way, or as they stand where that is not known."""
        try:
            return self.message.get_payload(decode=True) or b""
        except ODD:
            return self.message.get_payload().encode(errors="surrogateescape")

    def charset(self):
        """The charset that its header names, or, of HTML, the part itself."""
        try:
            charset = self.message.get_content_charset()
        except ODD:
            charset = None
        if codec_of(charset) is None and self.is_html():
            meta = META_CHARSET.search(self.payload[:META_LIMIT])
            charset = meta[1].decode() if meta else charset
        return charset

    @functools.cached_property
    def text(self):
        """Its text, up to the limit, and how many bytes are beyond."""
        data = self.payload
        text = decoded(data[:TEXT_LIMIT], self.charset())
        if self.is_html():
            text = text_of_html(text)
        elif self.sub in CARDS:
            text = text_of_card(text)
        elif self.parameter("format") == "flowed" and self.parameter("delsp") == "yes":
            text = without_line_ends(text)
        return text, max(0, len(data) - TEXT_LIMIT)


class Said:
    """What the header of a message says that is attached to another one, as a text: the fields of these names, or all of them."""

    def __init__(self, message, names=None):
        wanted = names and [name.lower() for name in names]
        fields = [(name, value) for name, value in message.raw_items() if wanted is None or name.lower() in wanted]
        lines = [f"{name}: {heading(' '.join(value.split()).encode('ascii', 'surrogateescape'))}" for name, value in fields]
        self.text = "\n".join(lines), 0

    def is_html(self):
        return False

    is_plain = is_html


def texts_in(part, attached=True, is_whole=True):
    """What is shown of a part: each text, of several forms of one text not the HTML where the plain one says something. What should
    be cut into parts and is not is shown as it stands. Where `attached` is false, a file that is attached is left out; what is all
    of a message is none.
    """
    if not part.parts:
        is_text = part.main in ("text", "multipart", "message")
        return [part] if is_text and (attached or is_whole or not part.file_name) else []
    is_message = part.main == "message"
    texts = []
    for inner in part.parts:
        if is_message:
            texts.append(Said(inner.message, None if part.sub in REPORTS else SAID))
        texts += texts_in(inner, attached, is_message)
    has_plain = part.sub == "alternative" and any(text.is_plain() for text in texts)
    return [text for text in texts if not (has_plain and text.is_html())]
