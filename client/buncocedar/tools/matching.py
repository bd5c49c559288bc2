"""What of a text answers a query: the words and phrases of its plan, and where they stand."""

import heapq
import itertools
import re
from typing import NamedTuple


class Term(NamedTuple):
    """A word of a query: whether more may follow it, and whether each spelling with its folding will do."""

    text: str
    open_end: bool
    folded: bool


def term_of(word):
    return Term(word[1:].rstrip("*"), word.endswith("*"), word[0] == "W")


def wanted_phrases(plan):
    """The phrases that a plan looks for, each a list of terms, most of one; without those under a NOT."""
    phrases = []
    without = None
    variables, bounds = {}, set()
    for line in [*plan.split("\n")[1:], "end"]:
        text = line.lstrip(" ")
        depth = len(line) - len(text)
        if text.startswith(("x", "p")) and " <= " in text:
            bounds.add(text)
            continue
        phrases += joined_terms(variables, bounds)
        variables, bounds = {}, set()
        if without is not None and depth <= without:
            without = None
        if without is None and text == "not":
            without = depth
        if without is None and text.startswith("found "):
            words = enumerate(text.split(" ")[2:], 1)
            variables = {number: term_of(word) for number, word in words if word[0] in "WX" and len(word) > 1}
    return phrases


def joined_terms(variables, bounds):
    """The terms of one node of a plan as phrases: two belong together where the bounds hold one right behind the other."""
    phrases = []
    for number, term in variables.items():
        before = number - 1
        if before in variables and {f"x{before} <= x{number}-1", f"x{number} <= x{before}+1"} <= bounds:
            phrases[-1].append(term)
        else:
            phrases.append([term])
    return phrases


class Pattern(NamedTuple):
    """What a phrase is looked for by: whether in the folded text, and the text with which each match begins."""

    folds: bool
    regular: re.Pattern
    front: str

    def search(self, text, at):
        """The first match from a place on, or None. Python finds a text much sooner than what only begins like one."""
        while (at := text.find(self.front, at)) >= 0:
            match = self.regular.match(text, at)
            if match:
                return match
            at += 1
        return None


def pattern_of(phrase, between=r"[^\w\n]+"):
    """The pattern of a phrase; by default its words stand in one line."""
    words = [re.escape(term.text) + (r"\w*" if term.open_end else "") for term in phrase]
    regular = re.compile(r"(?<!\w)" + between.join(words) + r"(?!\w)")
    return Pattern(all(term.folded for term in phrase), regular, phrase[0].text)


def folded(text):
    """The folded text, and of each of its characters the place in the text it came from, None where that is the same."""
    fold = text.casefold()
    if len(fold) == len(text):
        return fold, None
    return fold, [at for at, character in enumerate(text) for _ in character.casefold()] + [len(text)]


def spans_of(text, patterns):
    """Where the patterns stand in a text: spans that rise and don't meet, and how many of the patterns have one."""
    fold, places = folded(text)
    spans, met = [], 0
    for pattern in patterns:
        found = [match.span() for match in pattern.regular.finditer(fold if pattern.folds else text)]
        if pattern.folds and places:
            found = [(places[begin], places[end - 1] + 1) for begin, end in found]
        met += bool(found)
        spans += found
    apart, last = [], 0
    for begin, end in sorted(spans):
        if end > last:
            apart.append((max(begin, last), end))
            last = end
    return apart, met


def lines_with(text, pattern):
    """The numbers from 0 of the lines in which a pattern stands, as they rise, each once."""
    at = number = 0
    while match := pattern.search(text, at):
        number += text.count("\n", at, match.start())
        yield number
        end = text.find("\n", match.end())
        if end < 0:
            return
        at, number = end + 1, number + 1


def lines_with_any(text, fold, patterns):
    """The numbers from 0 of the lines in which one of the patterns stands, as they rise."""
    lines = heapq.merge(*(lines_with(fold if pattern.folds else text, pattern) for pattern in patterns))
    return [number for number, _ in itertools.groupby(lines)]


def fullest_line(text, fold, patterns):
    """The number from 0 of the first line that has most of the patterns, None where none has one.

    Each pattern is looked for once in the whole text, and a line without any is never looked at.
    """
    lines = heapq.merge(*(lines_with(fold if pattern.folds else text, pattern) for pattern in patterns))
    best, at = 0, None
    for number, met in itertools.groupby(lines):
        count = sum(1 for _ in met)
        if count > best:
            best, at = count, number
        if best == len(patterns):
            break
    return at


class Wanted:
    """What the answers to a query are looked through for."""

    def __init__(self, plan):
        phrases = wanted_phrases(plan)
        self.phrases = [pattern_of(phrase) for phrase in phrases]
        self.long = [pattern_of(phrase, r"\W+") for phrase in phrases if len(phrase) > 1]
        self.words = [pattern_of([term]) for phrase in phrases for term in phrase]

    def spans(self, text):
        return spans_of(text, self.phrases)[0] or spans_of(text, self.words)[0]

    def best_line(self, lines):
        """The number from 0 of the first line that has most of the phrases, or of their words; None where none has one."""
        text = "\n".join(lines)
        fold = text.casefold()
        at = fullest_line(text, fold, self.phrases)
        if at is None:
            at = self.broken_phrase(text, fold)
        return fullest_line(text, fold, self.words) if at is None else at

    def all_lines(self, text):
        """The numbers from 0 of the lines that have one of the phrases, or where none has, of their words."""
        fold = text.casefold()
        return lines_with_any(text, fold, self.phrases) or lines_with_any(text, fold, self.words)

    def broken_phrase(self, text, fold):
        """The line in which the first phrase begins that goes on in the next."""
        for pattern in self.long:
            searched = fold if pattern.folds else text
            match = pattern.search(searched, 0)
            if match:
                return searched.count("\n", 0, match.start())
        return None
