#!/usr/bin/env python3
"""Checks the pages themselves: check_documents.py, without arguments.

No line of README.md is longer than 120 characters, and it has at most 150; each link of a page leads to a file that is there, and where
it names a heading, to a heading of that page; ERRORS.md has one heading for each rule that a table of LANGUAGE.md lists, in the same
order, one for each kind of trap, and one for each status that README.md lists.
"""
import os
import re
import sys

TOP = os.path.normpath(os.path.join(os.path.dirname(os.path.abspath(__file__)), ".."))
LINK = re.compile(r"\[[^\]]*\]\(([^)\s]+)\)")
RULE = r"[LESNMFC]\d+"


def read(name):
    with open(os.path.join(TOP, name), encoding="utf-8") as it:
        return it.read()


def without_blocks(page):
    """The page without what stands in fenced blocks and code spans, line by line as before."""
    shown = re.sub(r"^```.*?^```$", lambda it: "\n" * it[0].count("\n"), page, flags=re.M | re.S)
    return re.sub(r"`[^`\n]*`", "", shown)


def anchors(page):
    """The names of the page's headings, as links write them."""
    plain = re.sub(r"^```.*?^```$", "", page, flags=re.M | re.S)
    headings = re.findall(r"^#+ (.*)$", plain, re.M)
    return {re.sub(r"[^\w\- ]", "", heading.lower()).strip().replace(" ", "-") for heading in headings}


def pages():
    """Every page of the repository, by its name from the top."""
    for folder, below, files in os.walk(TOP):
        below[:] = [it for it in below if not it.startswith(".") and it != "out"]
        for file in files:
            if file.endswith(".md"):
                yield os.path.relpath(os.path.join(folder, file), TOP)


def broken_links(name):
    """The links of a page that lead nowhere."""
    for number, line in enumerate(without_blocks(read(name)).splitlines(), 1):
        for link in LINK.findall(line):
            if re.match(r"\w+:", link):
                continue
            file, _, anchor = link.partition("#")
            target = os.path.normpath(os.path.join(os.path.dirname(name), file)) if file else name
            if not os.path.exists(os.path.join(TOP, target)):
                yield f"{name}:{number}: there is no {target}"
            elif anchor and target.endswith(".md") and anchor not in anchors(read(target)):
                yield f"{name}:{number}: {target} has no heading #{anchor}"


def wrong_lengths():
    """What of README.md is too long."""
    lines = read("README.md").splitlines()
    if len(lines) > 150:
        yield f"README.md has {len(lines)} lines"
    for number, line in enumerate(lines, 1):
        if len(line) > 120:
            yield f"README.md:{number} has {len(line)} characters"


def missing_errors():
    """What ERRORS.md lacks of the rules and traps of LANGUAGE.md, and of the statuses of README.md."""
    language, errors, readme = read("docs/LANGUAGE.md"), read("docs/ERRORS.md"), read("README.md")
    listed = re.findall(rf"^\| ({RULE}) \|", language, re.M)
    told = re.findall(rf"^### ({RULE})$", errors, re.M)
    if listed != told:
        yield f"docs/ERRORS.md: its rules aren't those of LANGUAGE.md: {' '.join(sorted(set(listed) ^ set(told))) or 'another order'}"
    traps = re.search(r"^### Traps$(.*?)^### ", language, re.M | re.S)[1]
    for kind in sorted(set(re.findall(r"^\| (\w+) \|", traps, re.M)) - {"Kind"}):
        if f"### trapped {kind}" not in errors:
            yield f"docs/ERRORS.md: nothing is said of 'trapped {kind}'"
    for row in re.findall(r"^\| (\d(?:, \d)*) \|", readme, re.M):
        for status in row.split(", "):
            if f"### Status {status}:" not in errors:
                yield f"docs/ERRORS.md: nothing is said of status {status}"


def main():
    wrong = [*wrong_lengths(), *missing_errors()]
    names = sorted(pages())
    for name in names:
        wrong.extend(broken_links(name))
    for it in wrong:
        print(it)
    print(f"pages: {len(names)} read, {len(wrong)} wrong")
    if wrong:
        sys.exit(1)


main()
