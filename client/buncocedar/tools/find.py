"""Finds documents: one query from the command line, or a prompt that takes one a line.

Prints a line `NUMBER NAME` for each document, the newest first, and how many were found; with --top and at the prompt the best
first, each with its score. On a terminal a line says what the document is: of a message its day, who wrote it and its subject, of a
file its path and the line that answers best. A document that is stored in parts is one answer, with the score of its best part. A
query with a fault is shown with a mark under it. Where the documents stand is known from the file of stamps that the importing
scripts keep beside the index: --paths prints that, --context shows the line that answers the query best, --show the document, and
--edit opens it in an editor. On a terminal the words that were found are marked, and a pager shows what is longer than the screen.

The index is let go before the first answer is shown, so nobody waits for who reads. One that may not be written is searched by
a private copy.

The status is 0 where the last query found something, 1 where it found nothing, 2 where it has a fault, and 3 where the index
could not be asked.
"""

# The prompt shows the best answers first, and a command the newest: who types a query reads a few answers, and what a script
# pipes on is mostly a list. A program that knows no `top` is asked for the newest.

import argparse
import contextlib
import os
import sys

from ..errors import Error
from ..replies import MOST_BEST
from ..shards import is_address
from ..terminal import paged, quiet_end, why
from .asking import Asking, answer, knows_top, take
from .documents import Places
from .reading import Readable
from .view import View

PROMPT_LIMIT = 20
PROMPT_WORDS = ("title:", "name:", "value:", "NEAR/", "AND ", "OR ", "NOT ", "help", "quit", "show ", "edit ", "top ")
VARIABLE = "BUNCOCEDAR_INDEX"


def say(text):
    print(f"find: {text}", file=sys.stderr)


# --- Words.


def count_of(text):
    if not text.isdecimal():
        raise argparse.ArgumentTypeError(f"{text} is no number")
    return min(int(text[:20]), sys.maxsize)


def best_count(text):
    count = count_of(text)
    if not 1 <= count <= MOST_BEST:
        raise argparse.ArgumentTypeError(f"{text} is none of 1 to {MOST_BEST:,}")
    return count


def parser():
    """What the words of the command may be."""
    parser = argparse.ArgumentParser(
        prog="bunco find", description=__doc__, formatter_class=argparse.RawDescriptionHelpFormatter
    )
    parser.add_argument("index", metavar="INDEX", nargs="?", help=f"the index; where {VARIABLE} names one it may be left out")
    parser.add_argument("query", metavar="QUERY", nargs="*", help="words are one query; without one, queries are read line by line")
    parser.add_argument("--wait", metavar="SECONDS", type=float, default=10.0, help="how long to wait for who has it open")
    parser.add_argument("--limit", "--last", metavar="N", type=count_of, help="no more than the first N of the order")
    order = parser.add_mutually_exclusive_group()
    order.add_argument("--top", metavar="N", type=best_count, help="the N best first, 1 to 1,000 (20 at the prompt)")
    order.add_argument("--newest", action="store_true", help="the newest first, also at the prompt")
    order.add_argument("--oldest", action="store_true", help="the oldest first")
    parser.add_argument("--by-date", action="store_true", help="order by the documents' own dates, and not by when they were brought in")
    parser.add_argument("--thread", action="store_true", help="all messages of the threads in which one is found, thread by thread")
    parser.add_argument("--about", action=argparse.BooleanOptionalAction, help="say in each row what the document is, as on a terminal")
    parser.add_argument("--context", action="store_true", help="show the line of each document that answers best")
    parser.add_argument("--around", metavar="N", type=count_of, default=0, help="with N lines before and behind it")
    kind = parser.add_mutually_exclusive_group()
    kind.add_argument("--show", action="store_true", help="print the newest document that is found, or --limit N of them")
    kind.add_argument("--edit", action="store_true", help="open it in the editor that VISUAL or EDITOR names")
    kind.add_argument("--paths", action="store_true", help="print the files in which the documents stand")
    kind.add_argument("--names", action="store_true", help="print the names alone")
    kind.add_argument("--count", action="store_true", help="print how many documents are found")
    kind.add_argument("--json", action="store_true", help="print an object a line with all that is known, for other programs")
    kind.add_argument("--grep", action="store_true", help="print PATH:LINE:TEXT for each line of a file that answers")
    parser.add_argument("-0", dest="null", action="store_true", help="end each path or name with a NUL, as xargs -0 reads them")
    parser.add_argument("--source", metavar="PATH", help="where the folder or archive stands, if it has moved since")
    parser.add_argument("--color", choices=("auto", "always", "never"), default="auto", help="mark what was found")
    parser.add_argument("--no-pager", action="store_true", help="do not show long answers by the pager")
    return parser


def is_index(path):
    """Whether an index stands at the path, as far as its name or its front says."""
    if path.endswith(".alta") or os.path.isdir(path) or is_address(path):
        return os.path.exists(path) or is_address(path)
    if not os.path.isfile(path):
        return False
    from ..fileformat import OPEN, SLOT

    with open(path, "rb") as file:
        head = file.read(SLOT + 1)
    return OPEN in (head[:1] + head[SLOT:])


def read_words(words, arguments):
    """The options as argparse reads them. An interrupt meanwhile stays one: what argparse itself then fails with would hide it."""
    try:
        return words.parse_intermixed_args(arguments)
    except AttributeError as error:
        if isinstance(error.__context__, KeyboardInterrupt):
            raise KeyboardInterrupt from None
        raise


def parsed(words, arguments):
    """The options, with the index that the variable names where none is given, and the query as one text, None without one."""
    options = read_words(words, arguments)
    usual = os.environ.get(VARIABLE)
    if usual and not (options.index and is_index(options.index)):
        options.query = [options.index, *options.query] if options.index is not None else []
        options.index = usual
    if options.index is None:
        words.error(f"INDEX is missing: name one, or set {VARIABLE}")
    options.query = " ".join(options.query) if options.query else None
    return options


def wrong_use(words, options, places):
    """Ends where the words of the command do not go together, and tells whether the file that they need is missing."""
    if options.null and not (options.paths or options.names):
        words.error("-0 goes with --paths or --names")
    if options.top and (options.limit or options.count):
        words.error("--top goes with neither --limit nor --count")
    if options.top and (options.by_date or options.thread) or options.by_date and options.thread:
        words.error("--top, --by-date and --thread are three orders")
    if options.edit and options.query is None:
        words.error("--edit goes with a query; at the prompt, edit N opens a document")
    needs = (options.context, options.show, options.edit, options.paths, options.grep, options.by_date, options.thread)
    is_missing = any(needs) and not os.path.exists(places.path)
    if is_missing:
        print(f"find: there is no {places.path}: which file a document stands in is not known", file=sys.stderr)
    return is_missing


# --- The command.


def asking(options, source, prompt, view):
    """The prompt, where it is typed the twenty best answers first, if nothing else is said of their order and number."""
    limit = PROMPT_LIMIT if options.limit is None and prompt.typed else options.limit
    has_order = options.newest or options.oldest or options.by_date or options.thread
    is_free = prompt.typed and options.limit is None and not (has_order or options.count)
    top = options.top
    if is_free and not top:
        with source.opened() as index:
            top = PROMPT_LIMIT if knows_top(index) else None
    return Asking(source, prompt, view, limit, top)


def ask(options, view):
    """Answers what the options ask, and gives the status."""
    with contextlib.ExitStack() as stack:
        stack.enter_context(quiet_end())
        source = stack.enter_context(Readable(options.index, options.wait, say))
        if options.query is None:
            from .prompt import Prompt

            prompt = stack.enter_context(Prompt("find", "history", PROMPT_WORDS))
            return asking(options, source, prompt, view).run()
        limit = 1 if (options.show or options.edit) and options.limit is None else options.limit
        with source.opened() as index:
            answered = take(index, options.query, view, limit, options.top)
        # Nobody waits for the index while the user reads or edits.
        with paged(not (options.no_pager or options.edit)):
            status = answer(answered, view)
        return status if all([view.edit(name) for name in view.chosen]) else 1


def main(arguments=None):
    words = parser()
    options = parsed(words, arguments)
    options.context = options.context or options.around > 0
    places = Places(options.index, options.source)
    if wrong_use(words, options, places):
        return 2
    # Names of files need not be text: they are written as the bytes that they are.
    sys.stdout.reconfigure(errors="surrogateescape")
    try:
        return ask(options, View(options, places))
    except KeyboardInterrupt:
        return 130
    except (Error, OSError) as error:
        say(why(error))
        return 3
