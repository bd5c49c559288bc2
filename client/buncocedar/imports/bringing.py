"""A run of an import, as the words of a command say: into an index, into a new one by way of memory, or as lines to be added."""

# A new index is made in memory only where that is asked for (`--fast`), since a stop of the machine leaves nothing of it.
# What it has at the end is moved into place even where the program or the source ended early: an index is whole at each
# moment.

import argparse
import contextlib
import os
import signal
import sys
import tempfile

from ..beside import PREFIX, making, no_wider_than, remove_left
from ..copying import put_copy
from ..document import NoText
from ..errors import Error
from ..fileformat import LEVELS, Unusable
from ..growth import SHARDS, Growth
from ..index import Index
from ..lasting import lasting
from ..lines import add_line
from ..shards import is_address, open_index
from ..shards.names import MOST_SHARDS
from ..terminal import waits, why, why_at
from .engine import Import, Options
from .interrupts import Interrupts
from .log import Log, several
from .making import Makers
from .parts import parts_of
from .stampfile import stamps_path
from .stamps import Known, Place, Stamps, below, name_of, numbered

MEMORY = "/dev/shm"
BESIDE = "buncocedar-"  # how the name of a folder in memory begins, in which an index is made
KEPT = "kept-buncocedar-"  # and of one in which an index stays that could not be put in its place

# Exit statuses, besides 0 and those of a signal.
SOME_REFUSED = 1
BAD_USE = 2
STOPPED = 3


def bring(tool, path, source, documents, options=Options(), fast=False):
    """Brings the documents of a source into the index at the path, and answers the exit status.

    The documents are an iterable, or a call that answers one where it is given what is known of the source, a `stamps.Known`.
    """
    return bring_all(tool, path, [(source, documents)], options, fast)


def bring_all(tool, path, sources, options=Options(), fast=False):
    """Brings the documents of several sources into the index at the path, one source behind the other, as `bring` does of one.

    An index and stamps that are made get no wider rights than each source has.
    """
    log = Log(tool)
    try:
        if path == "-":
            return write_lines(log, documents_of(sources), options.whole)
        if (fast or options.shards) and not is_to_be_made(path):
            log.say(f"{path} is there already, so it is added to where it stands")
            fast, options = False, options._replace(shards=None)
        with no_wider_than(below(source.path, Place(options.file)) for source, _ in sources):
            if options.shards:
                make_shards(path, options.shards)
            return (bring_beside if fast else bring_into)(log, path, sources, options, Growth(path, log.say))
    except (Error, OSError, Unusable) as error:
        log.say(f"stopped: {why(error)}" if path == "-" else why_at(path, error))
        return STOPPED
    except KeyboardInterrupt:
        log.say("broken off" if path == "-" else "broken off: run this again, and it goes on from here")
        return 128 + signal.SIGINT


def documents_of(sources):
    """The documents of all sources, of which nothing is known."""
    for _, documents in sources:
        yield from documents(Known()) if callable(documents) else documents


def is_to_be_made(path):
    """Whether no index stands at a path, and nothing else but an empty file."""
    return not (is_address(path) or os.path.islink(path) or os.path.exists(path) and os.path.getsize(path))


def make_shards(path, count):
    """Makes an index in so many files at such a path."""
    from ..shards import make

    with contextlib.suppress(FileNotFoundError):
        os.remove(path)
    make(path, count)


def bring_into(log, path, sources, options, growth):
    with contextlib.suppress(OSError):
        tell_left(log, os.path.dirname(os.path.abspath(path)), PREFIX)
    statuses = []
    with contextlib.ExitStack() as stack:
        makers = Makers(1 if options.may_pause else options.jobs)
        stack.callback(makers.close)
        index = stack.enter_context(open_index(path, create=True, patience=options.wait, on_wait=waits(log.say)))
        if not isinstance(index, Index):
            # The shards fill one by one, and each has its levels joined when it has taken much.
            index.merges = options.merge
            options = options._replace(merge=False)
        # Behind a server several may have the index: one import at a time gives names, and writes stamps.
        with no_wider_than([path]):
            stamps = Stamps(stamps_path(path), options.wait, waits(lambda text: log.say(f"{path}: {text}")))
        stack.callback(stamps.close)
        interrupts = stack.enter_context(Interrupts(index))
        for number, (source, documents) in enumerate(sources, 1):
            if len(sources) > 1:
                log.say(f"{source.path}:")
            with lasting():
                work = Import(index, stamps, source, options, log, makers, growth)
            work.run(documents(work.known) if callable(documents) else documents, interrupts)
            statuses.append(ended(work.summary, index, interrupts, number == len(sources)))
            if statuses[-1] not in (0, SOME_REFUSED):
                break
    return max(statuses)


def ended(done, index, interrupts, is_last):
    """Says what was done of a source, behind the program's end where it is the last one, and answers the exit status."""
    if is_last or done.end is not None or done.interrupted or done.fault:
        try:
            index.close()
        except Error as end:
            done.end = done.end or end
    done.report()
    if done.interrupted:
        return 128 + interrupts.signal
    if done.end is not None or done.fault or done.lost:
        return STOPPED
    return SOME_REFUSED if done.counts["refused"] else 0


def bring_beside(log, path, sources, options, growth):
    """Makes the index in memory, where there are no syncs to wait for, and moves what came of it into place, without holes."""
    # Whether anything can be made at the place is known before all of the source is read.
    with making(os.path.dirname(os.path.abspath(path))):
        pass
    folder = memory_folder()
    tell_left(log, folder, BESIDE)
    with making(folder, BESIDE) as beside:
        status = bring_into(log, beside, sources, options, growth)
        try:
            with open(beside, "rb") as built:
                with contextlib.suppress(FileNotFoundError):
                    if not os.path.getsize(path):
                        os.remove(path)
                put_copy(built, beside, path)
        except BaseException:
            kept = keep(beside)
            log.say(f"{path} could not be put in place; the index was made, and stands in {kept}: bunco compact copies it")
            raise
    return status


def keep(beside):
    """Moves an index and its stamps out of the folder that is taken away, and answers where it stands now."""
    kept = tempfile.mkdtemp(prefix=KEPT, dir=os.path.dirname(os.path.dirname(beside)))
    for path in (beside, stamps_path(beside)):
        os.rename(path, os.path.join(kept, os.path.basename(path)))
    return os.path.join(kept, os.path.basename(beside))


def memory_folder():
    """A folder in memory, or where there is none that of what lasts no longer than it is needed."""
    return MEMORY if os.path.isdir(MEMORY) and os.access(MEMORY, os.W_OK) else tempfile.gettempdir()


def tell_left(log, folder, prefix):
    """Takes away what imports left here that were killed, and says so: nothing of it is in an index."""
    for path in remove_left(folder, prefix):
        log.say(f"{path} is taken away: an import that was killed has left it")


def write_lines(log, documents, whole):
    """Writes the `add` lines of the documents to standard output, in place of adding them."""
    written = in_parts = passed_over = refused = 0
    used = set()
    numbers = {}  # of a wanted name the first number that may be free
    for document in documents:
        wanted = name_of(document.wanted)
        while (name := numbered(wanted, numbers.setdefault(wanted, 1))) in used:
            numbers[wanted] += 1
        used.add(name)
        try:
            parts = parts_of(name, document.load(), whole)
        except NoText:
            passed_over += 1
            continue
        except Exception as error:
            refused += 1
            log.say(f"refused {ascii(document.wanted)}: {error}")
            continue
        try:
            for part in parts:
                sys.stdout.buffer.write(add_line(*part)[0])
            sys.stdout.buffer.flush()
        except OSError as error:
            # What is still buffered goes nowhere, so that the end says nothing of it.
            os.dup2(os.open(os.devnull, os.O_WRONLY), sys.stdout.fileno())
            if isinstance(error, BrokenPipeError):
                break
            log.say(f"standard output could not be written: {error.strerror}")
            return STOPPED
        written += 1
        in_parts += len(parts) > 1
    said = [f"{several(written)} written", f"{in_parts:,} in parts", f"{passed_over:,} passed over", f"{refused:,} refused"]
    log.say(", ".join(said))
    return SOME_REFUSED if refused else 0


def parser_of(tool, describe, *names):
    """A parser for the words of an importing script: the index first."""
    parser = argparse.ArgumentParser(
        prog=f"bunco {tool}", description=describe, formatter_class=argparse.RawDescriptionHelpFormatter
    )
    parser.add_argument("index", metavar="INDEX", help="made where there is none; - writes the add lines to standard output")
    for name, about in names:
        word = name.strip("[] .")
        parser.add_argument(word.lower(), metavar=word, nargs="?" if "[" in name else "+" if ".." in name else None, help=about)
    parser.add_argument("--prune", action="store_true", help="delete what earlier runs brought in and is gone from the source")
    parser.add_argument("--moved-from", metavar="OLD", help="where the source stood when it was brought in before")
    made = parser.add_mutually_exclusive_group()
    made.add_argument("--fast", action="store_true", help="make a new index in memory, and move it into place at the end")
    made.add_argument("--shards", metavar="N", type=number_of_files, help=f"make a new index as a folder of N files: {SHARDS} from 500 MB of text on")
    parser.add_argument("--whole", action="store_true", help="refuse what is too long for a line, in place of parts")
    parser.add_argument("--no-merge", action="store_true", help=f"do not join the levels when there are {LEVELS}")
    parser.add_argument("--verbose", action="store_true", help="list what is passed over, since it is no text")
    parser.add_argument("--jobs", metavar="N", type=number_of_processes, help="how many processes read; else as many as processors")
    parser.add_argument("--wait", metavar="SECONDS", type=float, default=10.0, help="how long to wait for who has it open")
    return parser


def number_of_processes(text):
    if not text.isdecimal() or int(text) < 1:
        raise argparse.ArgumentTypeError(f"{text} is no number of processes")
    return int(text)


def number_of_files(text):
    if not text.isdecimal() or not 1 <= int(text) <= MOST_SHARDS:
        raise argparse.ArgumentTypeError(f"{text} is no number of files: 1 to {MOST_SHARDS:,}")
    return int(text)


def bring_as(tool, words, sources, file="", form="", may_pause=False):
    """Brings documents in as the words of a script say; the sources are as in `bring_all`, and the others as in `Options`."""
    options = Options(words.whole, words.prune, not words.no_merge, words.verbose, words.wait, words.moved_from, file, may_pause, form, words.jobs, words.shards)
    return bring_all(tool, words.index, sources, options, words.fast)
