#!/usr/bin/env python3
"""Finds, in pages, doc comments and help texts, words that this project replaces by plainer ones, and sentences that are too long.

`tests/style.py FILE..` prints FILE:LINE and what is found there. The exit status is 1 if anything is found. `tests/style.py --examples`
prints an example for each rule, one a paragraph. Code is not read: blocks, and what is between backticks.
"""

import re
import sys
from bisect import bisect_right
from collections.abc import Iterator
from pathlib import Path

MOST_WORDS = 30

# What is found, what to write instead, and an example. A pattern begins and ends at whole words; `^` is the start of a sentence.
RULES = [
    (r"refused", "an allocation fails; the prover rejects", "where memory is refused"),
    (r"(an?|the|each|every|no|its) refusals?|refusals? (leaves?|prints?|drops?)", "an allocation fails", "a refusal leaves the map"),
    (r"(wants?|want of|wanting) memory", "allocates; an allocation fails", "want of memory"),
    (r"answers? (an? |its |it|whether|true|false|what|none|`)", "returns", "it answers whether it changed"),
    (r"lent", "borrowed", "of lent operands"),
    (r"(maps?|sets?|operands?|tables?|entries|pairs|items|streams?|given|taken|the same|or) by value", "owned", "a map by value"),
    (r"(good|bad) (lines?|words?|ones?)|(is|are|call|calls) (good|bad)", "valid, invalid", "after a bad line"),
    (r"parted", "separated", "words parted by a space"),
    (r"(told|shown) by", "given by", "told by its line"),
    (r"(is|are|was|were) to (?!the\b|an?\b|its\b|it\b|one\b|this\b|that\b|all\b|each\b)[a-z]+", "must, requires", "it is to have a key"),
    (r"wants?|wanted", "needs, requires", "a caller wants a key"),
    (r"but (for|that)", "except", "all but for the last"),
    (r"one's", "your own, custom", "a key of one's own"),
    (r"(stands?|stood|standing) (at|in|on|above|below|before|behind|beside|here|there|under)", "is in, is at, depends on", "it stands at the call"),
    (r"what (there is|is there|it has found)", "the noun: the entry, the result", "keeps what is there"),
    (r"(costs?|takes?) (an?|one|two|no) (search|searches|look|looks|steps?|pass)", "O(log n), O(1), O(n)", "it costs a search"),
    (r"(an?|one|two|six|no|each|the|of|counts?|counted|for|single) looks?", "lookup", "counts the looks"),
    (r"look-ups?", "lookup", "a look-up"),
    (r"the same of", "the words themselves", "keeps the same of ranges"),
    (r"^the same(,| as| for| by| in| with| at| but)", "the words themselves", "The same, without a range."),
]
COMPILED = [(re.compile(rf"(?:(?<![\w-])|^)(?:{pattern})(?![\w-])", re.I), instead) for pattern, instead, _ in RULES]

# How a line of text begins in a file, by its suffix: doc comments of Rust and of C++, comments of C and of specs. All else has `#`.
MARKS = {
    ".rt": r"\s*//[/!] ?(.*)",
    ".rs": r"\s*//[/!] ?(.*)",
    ".antt": r"\s*-- ?(.*)",
    ".h": r"(?:/\*| \*(?!/)|//) ?(.*?)(?:\*/)?",
    ".hpp": r"\s*///?<? ?(.*)",
}

# Pages and comments whose sentences are counted; comments of scripts and the other pages are read for words alone.
COUNTED = re.compile(r"(README|TASKS|KEYS|CALLS|ERRORS|PROVE)\.md$|\.(rt|rs|h|hpp|pyx|pxi|pyi?)$")

Lines = list[tuple[int, str]]


def comments(path: Path, lines: list[str]) -> Iterator[Lines]:
    """The groups of lines of a file that are text: the whole of a page, comments of shell, doc comments of Rust, C and Python."""
    if path.suffix in (".md", ".help", ".package"):
        yield list(enumerate(lines, 1))
        return
    if path.suffix in (".py", ".pyi", ".pyx", ".pxi"):
        yield from docstrings(lines)
        return
    mark = re.compile(MARKS.get(path.suffix, r"\s*#(?!!) ?(.*)") + "$")
    group: Lines = []
    for number, line in enumerate(lines, 1):
        found = mark.match(line)
        if found:
            group.append((number, found[1]))
        elif group:
            yield group
            group = []
    yield group


def docstrings(lines: list[str]) -> Iterator[Lines]:
    """The docstrings of Python, without their examples."""
    group: Lines | None = None
    indent, example = 0, False
    for number, line in enumerate(lines, 1):
        if group is None:
            if line.lstrip().startswith('"""'):
                indent = len(line) - len(line.lstrip())
                line = line.replace('"""', "", 1)
                group, example = [], False
            else:
                continue
        text = line.split('"""')[0][indent:]
        example = text.strip() != "" and (example or text.startswith(">>>"))
        group.append((number, "" if example else text))
        if '"""' in line:
            yield group
            group = None


def paragraphs(group: Lines, indented_is_code: bool) -> Iterator[Lines]:
    """The paragraphs, items, headings and cells of Markdown, without blocks of code."""
    paragraph: Lines = []
    fenced = False
    for number, line in group:
        text = line.strip()
        code = indented_is_code and line.startswith("    ") and not paragraph
        if text.startswith("```"):
            fenced = not fenced
        starts = text == "" or text.startswith(("```", "|", "#", "- ", "* ")) or re.match(r"\d+\. ", text)
        if (starts or fenced or code) and paragraph:
            yield paragraph
            paragraph = []
        if fenced or code or text.startswith("```"):
            continue
        if text.startswith("|"):
            for cell in re.split(r"(?<!\\)\|", text)[1:-1]:
                yield [(number, cell)]
        elif text:
            paragraph.append((number, text))
    if paragraph:
        yield paragraph


def sentences(paragraph: Lines) -> Iterator[Lines]:
    """Each sentence as its words with their lines. Code between backticks is one word of backticks."""
    text = " ".join(line for _, line in paragraph)
    starts = [sum(len(line) + 1 for _, line in paragraph[:at]) for at in range(len(paragraph))]
    text = re.sub(r"(`+|<code>).*?(\1|</code>)", lambda code: "`" * len(code[0]), text)
    text = re.sub(r"\]\([^)]*\)", lambda link: " " * len(link[0]), text)
    words: Lines = []
    for word in re.finditer(r"\S+", text):
        words.append((paragraph[bisect_right(starts, word.start()) - 1][0], word[0]))
        if re.search(r"[.!?][\"')*]*$", word[0]) and not re.match(r"\s*[a-z][a-z]", text[word.end() :]):
            yield words
            words = []
    yield words


def findings(path: Path) -> Iterator[tuple[int, str]]:
    """What is found in a file, with its lines."""
    for group in comments(path, path.read_text(encoding="utf-8").splitlines()):
        for paragraph in paragraphs(group, path.suffix != ".help"):
            for sentence in sentences(paragraph):
                text = " ".join(word for _, word in sentence)
                for pattern, instead in COMPILED:
                    for found in pattern.finditer(text):
                        yield sentence[text.count(" ", 0, found.start())][0], f"'{found[0]}': {instead}"
                count = sum(bool(re.search(r"[\w`]", word)) for _, word in sentence)
                if count > MOST_WORDS and COUNTED.search(path.name):
                    yield sentence[0][0], f"a sentence of {count} words: {text[:60]}.."


def main() -> int:
    if sys.argv[1:] == ["--examples"]:
        print("\n\n".join(example for _, _, example in RULES))
        return 0
    status = 0
    for name in sys.argv[1:]:
        for line, found in findings(Path(name)):
            print(f"{name}:{line}: {found}")
            status = 1
    return status


if __name__ == "__main__":
    sys.exit(main())
