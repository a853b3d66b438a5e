#!/usr/bin/env python3
"""Compares the options of each command's help with those of its manual page, with the program that is given. tests/manual runs it.

Each option of `ftrighub COMMAND -h` is in the interface of docs/manual/COMMAND.md, and has an item below "Options" there. The page has
no other option, but for another name that the item of one has, or that an item of its own says to be "another name of" it. The page of
the program has the same interface of each command. Its last line is 'N passed, M failed'.
"""
import re
import subprocess
import sys
from pathlib import Path

from hubs import TOP, Report, the_program

PAGES = Path(TOP, "docs", "manual")
OPTION = re.compile(r"(?<![\w-])--?[a-z][a-z-]*")
# An option in a help: its short name, its long one, or both.
HELPED = re.compile(r"^ +(-\w)?(?:, )?(--[a-z-]+)?", re.MULTILINE)
EVERYWHERE = {"-h", "--help"}
ITEM = re.compile(r"^- (`-[^:]*:(?: another name of `[^`]*`)?)", re.MULTILINE)


def help_of(*words):
    return subprocess.run([the_program(), *words, "-h"], capture_output=True, text=True, check=True, timeout=60).stdout


def block(text, title):
    """Returns the lines below a title of a help, up to an empty one."""
    return text.partition(f"\n{title}:\n")[2].partition("\n\n")[0]


def chapter(page, title):
    return page.partition(f"\n## {title}\n")[2].partition("\n## ")[0]


def helped(command):
    """Returns the names of each option of a command's help, but for the help's own."""
    found = [{*filter(None, it)} for it in HELPED.findall(block(help_of(command), "Options"))]
    return [it for it in found if it and not it & EVERYWHERE]


def lines_for(command, page):
    """Returns the lines of a page's interface that run the command."""
    return re.findall(rf"^    (ftrighub {command}\b.*)$", chapter(page, "Interface"), re.MULTILINE)


def check_page(report, command, program_page):
    page = (PAGES / f"{command}.md").read_text(encoding="utf-8")
    interface = lines_for(command, page)
    shown = {*OPTION.findall(" ".join(interface))}
    items = [{*OPTION.findall(it)} for it in ITEM.findall(chapter(page, "Options"))]
    options = helped(command)
    known = set().union(*options)
    named = known.union(*[it for it in items if it & known])
    report.same(f"{command}, options that its interface lacks", [sorted(it) for it in options if not it & shown], [])
    report.same(f"{command}, options without an item", [sorted(it) for it in options if not it & set().union(*items)], [])
    report.same(f"{command}, options that its help lacks", sorted(shown.union(*items) - named), [])
    report.same(f"{command}, its interface on the page of the program", lines_for(command, program_page), interface)


def main():
    report = Report()
    program_page = (PAGES / "ftrighub.md").read_text(encoding="utf-8")
    commands = [it for it in re.findall(r"^  (\w+) ", block(help_of(), "Commands"), re.MULTILINE) if it != "help"]
    report.same("the commands on the page of the program", sorted({*re.findall(r"^    ftrighub ([a-z]+)", program_page, re.MULTILINE)}),
                sorted([*commands, "help"]))
    for command in commands:
        report.tried(command, check_page, report, command, program_page)
    return report.end()


if __name__ == "__main__":
    sys.exit(main())
