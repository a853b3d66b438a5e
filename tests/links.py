#!/usr/bin/env python3
"""Checks the links of the Markdown pages, and the order of the manual's. tests/manual runs it.

Each relative link of a page names a file or a folder that is there, and its #anchor a heading of that page. docs/manual/README.md
lists each page of its folder once. Each of these says below its title which page comes before it and which after, in the
order of that list. Its last line is 'N passed, M failed', one for each page and one for the list.
"""
import re
import sys
from pathlib import Path

ROOT = Path(__file__).resolve().parent.parent
INDEX = ROOT / "docs" / "manual" / "README.md"
PAGES = ("*.md", "docs/*.md", "docs/manual/*.md", "crates/*/*.md")
FENCED = re.compile(r"^```.*?^```$", re.MULTILINE | re.DOTALL)
HEADING = re.compile(r"^#+ (.+)$", re.MULTILINE)
# (A link's text may be code, so code is left out first. No page has a link within a link.)
CODE = re.compile(r"`[^`\n]+`")
LINK = re.compile(r"\[[^\]]*\]\(([^)\s]+)\)")
LISTED = re.compile(r"^\| \[[^\]]*\]\(([\w-]+\.md)\) ", re.MULTILINE)


def without_blocks(page):
    """Returns the text of a page with as many lines, and none within a block."""
    return FENCED.sub(lambda it: "\n" * it[0].count("\n"), page.read_text(encoding="utf-8"))


def anchors(page):
    """Returns the anchors of a page's headings. Of two that are the same, the second ends in -1."""
    seen, found = {}, set()
    for heading in HEADING.findall(without_blocks(page)):
        name = re.sub(r"[^\w\- ]", "", re.sub(LINK, "", heading).lower()).replace(" ", "-")
        count = seen[name] = seen.get(name, -1) + 1
        found.add(f"{name}-{count}" if count else name)
    return found


def broken(page, to):
    """Returns what is wrong with a link of a page, or None."""
    if re.match(r"[a-z]+:", to):
        return None
    path, _, anchor = to.partition("#")
    file = page.parent / path if path else page
    if not file.exists():
        return f"there is no {path}"
    if anchor and (file.suffix != ".md" or anchor not in anchors(file)):
        return f"{path or 'this page'} has no heading #{anchor}"
    return None


def faults_of_links(page):
    for number, line in enumerate(without_blocks(page).split("\n"), 1):
        for to in LINK.findall(CODE.sub("code", line)):
            fault = broken(page, to)
            if fault:
                yield number, fault


def title(page):
    return page.read_text(encoding="utf-8").partition("\n")[0].removeprefix("# ")


def neighbours(names):
    """Returns for each page of the manual the line that its third one has to be."""
    pages = [INDEX.parent / it for it in names]
    for before, page, after in zip([None, *pages], pages, [*pages[1:], None]):
        links = [f"{word}: [{title(it)}]({it.name})" for word, it in (("Before", before), ("Next", after)) if it]
        yield page, f"[The manual](README.md). {'. '.join(links)}."


def faults_of_place(page, wanted):
    lines = [*page.read_text(encoding="utf-8").split("\n", 4), "", "", ""]
    if lines[1:4] != ["", wanted, ""]:
        yield 3, f"between empty lines, this has to be: {wanted}"


def main():
    listed = [it for it in LISTED.findall(INDEX.read_text(encoding="utf-8"))]
    there = {it.name for it in INDEX.parent.glob("*.md")} - {INDEX.name}
    faults = {INDEX: []}
    for name in sorted(there ^ {*listed}):
        faults[INDEX].append((1, f"{name} isn't there" if name in listed else f"{name} isn't listed"))
    if len(listed) > len({*listed}):
        faults[INDEX].append((1, "a page is listed twice"))
    places = dict(neighbours([it for it in listed if it in there]))
    pages = [it for pattern in PAGES for it in sorted(ROOT.glob(pattern))]
    for page in pages:
        found = faults.setdefault(page, [])
        found += faults_of_links(page)
        found += faults_of_place(page, places[page]) if page in places else []
    for page, found in faults.items():
        for number, fault in found:
            print(f"manual, {page.relative_to(ROOT)}:{number}: FAILED: {fault}")
    failed = sum(map(bool, faults.values()))
    print(f"{len(faults) - failed} passed, {failed} failed")
    return 1 if failed else 0


if __name__ == "__main__":
    sys.exit(main())
