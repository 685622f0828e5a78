#!/usr/bin/env python3
"""Wraps the prose of pages at 120 columns.

usage: python3 tools/wrap.py PAGE ..            writes each page anew
       python3 tools/wrap.py --check PAGE ..    only names the lines that are longer

Paragraphs and list items are wrapped; tables, headings and code stay as they are. A piece of code in a line is never broken.
"""
import re
import sys

WIDTH = 120
ITEM = re.compile(r"(\s*)([-*+]|\d+\.) ")
MARKUP = re.compile(r"([-*+>]|#{1,6}|\d+[.)]|=+|-+)$")


def stays(line):
    return not line.strip() or line.startswith("    ") or line.lstrip().startswith(("|", "#", "<", "!["))


def words(text):
    """The words of a text, a piece of code and what touches it being one."""
    out = []
    for piece in re.findall(r"(?:`+[^`]*`+|[^\s`])+|\S+", text):
        if out and MARKUP.match(piece):
            out[-1] += " " + piece
        else:
            out.append(piece)
    return out


def filled(first, other, text):
    lines, line = [], first
    empty = True
    for word in words(text):
        if not empty and len(line) + 1 + len(word) > WIDTH:
            lines.append(line)
            line, empty = other, True
        line += word if empty else " " + word
        empty = False
    return lines + [line]


def wrapped(page):
    out, text, first, other, fence = [], [], "", "", False

    def end():
        if text:
            out.extend(filled(first, other, " ".join(t.strip() for t in text)))
            text.clear()

    for line in page.split("\n"):
        item = ITEM.match(line)
        if line.startswith("```"):
            end()
            fence = not fence
            out.append(line)
        elif fence or (stays(line) and not text) or not line.strip() or line.lstrip().startswith(("|", "#", "<", "![")):
            end()
            out.append(line)
        elif item:
            end()
            first, other = item.group(0), " " * len(item.group(0))
            text.append(line[item.end():])
        else:
            if not text:
                first = other = ""
            text.append(line)
    end()
    return "\n".join(out)


def too_long(page):
    fence = False
    for number, line in enumerate(page.split("\n"), 1):
        fence ^= line.startswith("```")
        if len(line) > WIDTH and not fence and not stays(line):
            yield number


def main():
    names = sys.argv[1:]
    check = names[:1] == ["--check"]
    found = False
    for name in names[check:]:
        page = open(name).read()
        if not check:
            page = wrapped(page)
            open(name, "w").write(page)
        for number in too_long(page):
            found = True
            print(f"{name}:{number}: over {WIDTH} columns")
    return found


if __name__ == "__main__":
    sys.exit(main())
