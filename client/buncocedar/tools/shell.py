"""A prompt for all commands of an index, or of a folder of shards.

A line is a command of the program, as README.md has them; `help` prints them. `add NAME` alone asks for title and body, since
a tab completes words here. Lines that come from a file or a pipe are answered in the same way, and a refusal is an error of
theirs. An index that may not be written is read by a private copy, and takes no line that changes it. The status is 0, 1 where a line that was not typed was refused, 2 for wrong words, and 3 where the index, or a shard of
it, could not be asked.
"""

import argparse
import sys

from ..errors import Error, QueryFault, Refused, refusal_of
from ..growth import Growth
from ..replies import query_in
from ..shards import Missing, NotAnswered
from ..terminal import printable, quiet_end, why
from .prompt import Prompt
from .reading import Readable

HELP = """add NAME            stores a document: title and body are asked for
delete NAME         takes a document out of all answers
search QUERY        the documents that match
top COUNT QUERY     the best of them, with their scores
count QUERY         how many match
explain QUERY       how the query is read and answered
open QUERY          a cursor over the answers as they are now
fetch CURSOR COUNT  its next answers
close CURSOR        gives it back
dump                the words of all documents, as lines that add them
stats               how many documents and words there are, and the next number
flush               writes the newest documents out of the journal
merge               joins all levels to one
step TERMS          a part of a join of the two oldest levels
help, quit          this text; the end, as Ctrl-D
A query: words, "a phrase", qui*, title:fox, name:x, red NEAR/5 fox, AND, OR, NOT, ( )"""
# Behind a command that takes more stands the blank before that.
COMMANDS = [line.partition("  ")[0] for line in HELP.split("\n")[:14]]
WORDS = [line.split()[0] + " " * (" " in line) for line in COMMANDS] + ["help", "quit", "title:", "name:", "NEAR/", "AND ", "OR ", "NOT "]
CHANGING = ("add", "delete", "flush", "merge", "step")
SOME_REFUSED = 1
STOPPED = 3


def say(text):
    print(f"shell: {text}", file=sys.stderr)


def shown(text):
    """The text as it is written: on a terminal without what would steer it."""
    return printable(text) if sys.stdout.isatty() else text


class Shell:
    def __init__(self, source, index, prompt, growth):
        self.source = source
        self.index = index
        self.prompt = prompt
        self.growth = growth

    def answer(self, line):
        """Prints the reply to a line, and answers its status: 0, or that it was refused, or that a shard gave no answer."""
        word, _, rest = line.partition(" ")
        try:
            if self.prompt.typed and line.strip() in ("help", "?"):
                print(HELP)
            elif self.source.is_copy and word in CHANGING:
                raise Refused(f"! {self.source.path} may not be written, and takes no {word}")
            elif self.prompt.typed and word == "add" and "\t" not in rest:
                self.add(rest.strip())
            else:
                self.say(line)
        except Refused as refusal:
            print(refusal, file=sys.stderr)
            return SOME_REFUSED
        except (Missing, NotAnswered) as lack:
            # What the other shards said is printed.
            sys.stdout.flush()
            say(lack)
            return STOPPED
        sys.stdout.flush()
        return 0

    def add(self, name):
        title = self.prompt.ask("title> ")
        body = None if title is None else self.prompt.ask("body> ")
        if body is not None:
            # A tab would end the title.
            title = title.replace("\t", " ")
            self.say(f"add {name}\t{title}\t{body}")

    def say(self, line):
        """Prints the reply to a line, whose bytes the program gets as they are."""
        data = line.encode(errors="surrogateescape")
        for text in self.index.each_answer(data):
            if text.startswith("! "):
                word = data.partition(b" ")[0]
                refusal = refusal_of(text, "", query_in(data, word))
                raise refusal if isinstance(refusal, QueryFault) else Refused(text)
            print(shown(text))
        if data.startswith(b"add "):
            self.growth.put(len(data))


def run(source, create, prompt):
    """Answers lines up to the end, and answers the status."""
    status = 0
    index = source.opened(create)
    growth = Growth(source.path, say)
    try:
        for line in prompt.lines("alta> "):
            try:
                said = Shell(source, index, prompt, growth).answer(line)
                status = status if prompt.typed else max(status, said)
            except KeyboardInterrupt:
                # A call that waits for the program is broken off with it.
                if not prompt.typed:
                    raise
                index.kill()
                index = source.opened()
                print("\nbroken off: the index is opened anew, without cursors", file=sys.stderr)
    finally:
        index.close()
    return status


def parser():
    """What the words of the command may be."""
    parser = argparse.ArgumentParser(
        prog="bunco shell", description=__doc__, formatter_class=argparse.RawDescriptionHelpFormatter
    )
    parser.add_argument("index", metavar="INDEX")
    parser.add_argument("--create", action="store_true", help="make the index where there is none")
    parser.add_argument("--wait", metavar="SECONDS", type=float, default=10.0, help="how long to wait for who has it open")
    return parser


def main(arguments=None):
    options = parser().parse_args(arguments)
    # What a locale can't write ends no run, and another program gets the bytes of the replies.
    sys.stdout.reconfigure(**({"errors": "replace"} if sys.stdout.isatty() else {"encoding": "utf-8"}))
    try:
        with Prompt("shell", "shell_history", WORDS) as prompt, quiet_end(), Readable(options.index, options.wait, say) as source:
            return run(source, options.create, prompt)
    except KeyboardInterrupt:
        return 130
    except (Error, OSError) as error:
        say(why(error))
        return STOPPED
    return 0
