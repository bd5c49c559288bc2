"""Brings Debian's package descriptions into an index, from `apt-cache dumpavail` or a file as /var/lib/dpkg/status.

The name is the package's name, the title that name and the description's first line, the body the rest of the description. A package that
stands in several files is one document, of the file that was read last. --prune deletes what is gone from the file that is read.
"""

import functools
import os
import sys

from ..document import Document, Text, Unfit
from .bringing import BAD_USE, bring_as, parser_of
from .stamps import Place, Source


def stanzas(source):
    """Of each stanza the place of its first byte, its length, and its fields: a name, and the lines of its value.

    Lines of another form are passed over.
    """
    begin = at = 0
    fields = {}
    value = None
    for line in source:
        at += len(line)
        line = line.decode(errors="replace").rstrip("\r\n")
        if not line:
            if fields:
                yield begin, at - begin, fields
            begin, fields, value = at, {}, None
        elif line[0] in " \t":
            if value is not None:
                value.append(line.strip())
        else:
            name, colon, first = line.partition(":")
            value = [first.strip()]
            if colon:
                fields[name] = value
    if fields:
        yield begin, at - begin, fields


def text_of(fields):
    """The description of a package, None where there is none, as of one that was removed."""
    description = fields.get("Description") or fields.get("Description-en")
    if not (fields.get("Package") and description):
        return None
    return Text(f"{fields['Package'][0]} - {description[0]}", "\n".join("" if line == "." else line for line in description[1:]))


def packages(source, path=None):
    """A document for each stanza that describes a package; the path is that of the file, where it is one."""
    for begin, length, fields in stanzas(source):
        text = text_of(fields)
        if text is not None:
            stamp = f"{text.title}\n{' '.join(text.body.splitlines())}".encode()
            place = Place(path, begin, length).spelled() if path else ""
            yield Document(fields["Package"][0], stamp, functools.partial(Text, *text), place)


def read(found):
    """The description that stands in a piece of a file, as `bunco find` shows it."""
    with open(found.path, "rb") as file:
        file.seek(found.begin)
        stanza = next(stanzas(file.read(found.length).splitlines(True)), None)
    text = text_of(stanza[2]) if stanza else None
    if text is None:
        raise Unfit("it has changed since it was brought in: run bunco packages again")
    return text


def parser():
    """What the words of the command may be."""
    return parser_of("packages", __doc__, ("[FILE]", "a file of stanzas; without one they are read from standard input"))


def main(arguments=None):
    words = parser()
    options = words.parse_args(arguments)
    if options.file is None and sys.stdin.isatty():
        words.print_usage(sys.stderr)
        return BAD_USE
    try:
        source = open(sys.stdin.fileno() if options.file is None else options.file, "rb")
    except OSError as error:
        print(f"packages: {options.file}: {error.strerror}", file=sys.stderr)
        return BAD_USE
    path = os.path.realpath(options.file) if options.file and os.path.isfile(options.file) else None
    with source:
        # All files of descriptions are one source, since a package may stand in each.
        return bring_as("packages", options, [(Source("packages", "packages"), packages(source, path))], path or "", may_pause=path is None)
