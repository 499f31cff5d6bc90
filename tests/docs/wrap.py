#!/usr/bin/env python3
"""Lays out the paragraphs and list items of pages that have a line of more than 140 characters.

    tests/docs/wrap.py PAGE..

Tables, headings, and what is fenced or drawn stay as they are, and so does a paragraph whose lines are short enough. Code in letters and links are not parted."""
import pathlib
import re
import sys
import textwrap

WIDE = 140
ITEM = re.compile(r"( *)((?:[-*]|\d+\.) +)?")
WHOLE = re.compile(r"`[^`]*`|\[[^\]]*\]\([^)]*\)")


def laid_out(block):
    """The lines of a paragraph, none wider than it may be."""
    if all(len(line) <= WIDE for line in block):
        return block
    indent, mark = (part or "" for part in ITEM.match(block[0]).groups())
    text = " ".join(line.strip() for line in block).removeprefix(mark)
    text = WHOLE.sub(lambda found: found[0].replace(" ", "\0"), text)
    lines = textwrap.wrap(text, WIDE, initial_indent=indent + mark, subsequent_indent=indent + " " * len(mark), break_long_words=False, break_on_hyphens=False)
    return [line.replace("\0", " ") for line in lines]


def wrapped(text):
    lines, block, is_fenced = [], [], False
    for line in text.split("\n"):
        is_fence = line.lstrip().startswith("```")
        is_drawn = line.startswith("    ") and not (block and ITEM.match(block[0])[2])
        if is_fence or is_fenced or is_drawn or not line.strip() or line.startswith(("|", "#", "<!--")):
            lines, block = [*lines, *laid_out(block), line], []
            is_fenced = is_fenced != is_fence
            continue
        if ITEM.match(line)[2]:
            lines, block = [*lines, *laid_out(block)], []
        block.append(line)
    return "\n".join([*lines, *laid_out(block)])


for page in map(pathlib.Path, sys.argv[1:]):
    was = page.read_text(encoding="utf-8")
    if wrapped(was) != was:
        page.write_text(wrapped(was), encoding="utf-8")
        print(f"laid out {page}")
