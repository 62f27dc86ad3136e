#!/usr/bin/env python3
"""Makes what the pages can take from the sources: make_pages.py [--check].

In docs/ARCHITECTURE.md the table of crates (crates.txt, the first line of each src/lib.rt or main.rt, lines counted, docs/gate.txt) and the
lists of files (the first comment of each file); in docs/TESTED.md the table of tests, edits and texts; and crates/NAME/README.md (the
head of its root file, its chapter of docs/PROVED.md, what PROVED.md and TESTED.md say is open or only tested of it, its edits). What is
made stands between two comments, or is the whole file. With --check it makes nothing, and says which pages aren't as they would be made.
"""
import os
import re
import sys
import textwrap

TOP = os.path.normpath(os.path.join(os.path.dirname(os.path.abspath(__file__)), ".."))
BEGIN, END = "<!-- made by docs/make_pages.py -->", "<!-- end of what is made -->"
WIDTH = 120
BY_FUNCTION = {"Answers.antt", "Invariants.antt", "Proof.antt"}


def read(name):
    with open(os.path.join(TOP, name), encoding="utf-8") as it:
        return it.read()


def crates():
    """The repository's crates in the order of crates.txt, each with those of the repository that it names."""
    rows = [line.split("#")[0].split(":") for line in read("crates.txt").splitlines() if line.split("#")[0].strip()]
    names = [row[0].split()[0] for row in rows]
    return {name: [it for it in row[1].split() if it in names] for name, row in zip(names, rows)}


def without_implied(name, stands_on):
    """The crates that a crate stands on, but for those that another of them stands on."""
    below = lambda it, seen: [seen.add(low) or below(low, seen) for low in stands_on[it] if low not in seen] and seen or seen
    implied = set()
    for it in stands_on[name]:
        implied |= below(it, set())
    return [it for it in stands_on[name] if it not in implied]


def sources(crate, folder):
    """The source files of a folder of a crate, by their path below it; folders are walked by name."""
    for place, below, files in sorted(os.walk(os.path.join(TOP, "crates", crate, folder))):
        below.sort()
        for file in sorted(files):
            if file.endswith((".rt", ".antt")):
                yield os.path.relpath(os.path.join(place, file), os.path.join(TOP, "crates", crate, folder))


def line_count(crate, folder):
    return sum(read(f"crates/{crate}/{folder}/{file}").count("\n") for file in sources(crate, folder))


def root(crate):
    return next(name for name in ("lib.rt", "main.rt") if os.path.exists(f"{TOP}/crates/{crate}/src/{name}"))


def head(crate):
    """The paragraphs at the head of a crate's root file."""
    lines = []
    for line in read(f"crates/{crate}/src/{root(crate)}").splitlines():
        if not line.startswith("//!"):
            break
        lines.append(line[3:].strip())
    return re.split(r"\n\n+", "\n".join(lines).strip()) if lines else [""]


def first_comment(path):
    """The first comment of a file that stands alone on its line, up to its first sentence's end."""
    said = []
    for line in read(path).splitlines():
        text = re.match(r"\s*(?://[/!]?|--) ?(.*)", line)
        if text and not re.match(r"-+ |-+$", text[1]):
            said.append(text[1].strip())
        elif said:
            break
    return re.split(r"(?<=\.)\s", " ".join(said), maxsplit=1)[0].rstrip(".")


def wrapped(text, indent=""):
    return textwrap.fill(text, WIDTH, subsequent_indent=indent, break_long_words=False, break_on_hyphens=False)


def edits(crate):
    folder = os.path.join(TOP, "crates", crate, "must-fail")
    return sorted(it[:-5] for it in os.listdir(folder) if it.endswith(".edit")) if os.path.isdir(folder) else []


def tests(crate):
    return sum(len(re.findall(r"^\s*#\[test\]", read(f"crates/{crate}/src/{file}"), re.M)) for file in sources(crate, "src"))


def minutes():
    """Minutes of one processor that the gate took for a crate, as docs/gate.txt has them."""
    rows = [line.split() for line in read("docs/gate.txt").splitlines() if line and not line.startswith("#")]
    return {row[0]: row[1] for row in rows}


def short(name):
    return name[4:] if name.startswith("xmp_") else name


def crate_table():
    stands_on, took = crates(), minutes()
    yield "| Crate | What | Stands on | src | specs | proofs | edits | gate |"
    yield "|---|---|---|---|---|---|---|---|"
    for name in stands_on:
        on = ", ".join(map(short, without_implied(name, stands_on))) or "–"
        lines = " | ".join(str(line_count(name, folder)) for folder in ("src", "specs", "proofs"))
        what = head(name)[0].replace("\n", " ").split(". ")[0].rstrip(".")
        yield f"| [{name}](../crates/{name}/README.md) | {what} | {on} | {lines} | {len(edits(name))} | {took.get(name, '–')} |"


def file_lists():
    for name in crates():
        yield f"\n### {name}\n"
        for folder in ("src", "specs"):
            for file in sources(name, folder):
                if file not in ("Lib.antt", root(name)) or folder == "proofs":
                    said = first_comment(f"crates/{name}/{folder}/{file}")
                    yield wrapped(f"- `{folder}/{file}`: {said}" if said else f"- `{folder}/{file}`", "  ")
        proofs = [file[:-5] for file in sources(name, "proofs") if os.path.basename(file) not in BY_FUNCTION and file != "Lib.antt"]
        if proofs:
            yield wrapped("- proofs: " + ", ".join(proofs), "  ")


def architecture():
    return "\n".join([*crate_table(), "\n## Files\n", "Each file by its first sentence; of lemmas only the names. Answers to single goals stand in folders named after",
                      "the function, and aren't listed.", *file_lists()])


def texts_of(page):
    """How many texts of a page are run."""
    return len(re.findall(r"^`(?:--\w+=\d+ ?)*(?:serial|run)?(?: ?--[\w-]+(?:=\d+)? ?)*(?:accepted|refused [^`]*|trapped [^`]*|out of steps)?`\n```", read(page), re.M))


def tested():
    yield "| Crate | Test functions | Edits that the prover refuses |"
    yield "|---|---|---|"
    sums = [0, 0]
    for name in crates():
        found = tests(name), edits(name)
        if found[0] or found[1]:
            sums = [sums[0] + found[0], sums[1] + len(found[1])]
            yield f"| {name} | {found[0] or '–'} | {len(found[1]) or '–'} |"
    yield f"| in all | {sums[0]} | {sums[1]} |"
    yield ""
    yield "| Texts that are run | |"
    yield "|---|---|"
    for page in ("docs/LANGUAGE.md", "docs/ERRORS.md", "docs/GUIDE.md", "examples/names.md", "examples/forms.md", "examples/flow.md"):
        yield f"| {page} | {texts_of(page)} |"
    yield f"| examples/*.c | {len([it for it in os.listdir(TOP + '/examples') if it.endswith('.c')])} |"


def chapter(name):
    """What PROVED.md says of a crate, without its heading; links are made to lead from the crate's folder."""
    found = re.search(rf"^#### (?:\w+, )*{name}(?:, \w+)*\n\n(.*?)(?=^#+ |\Z)", read("docs/PROVED.md"), re.M | re.S)
    return moved(found[1].strip()) if found else ""


def moved(text):
    text = re.sub(r"\]\((\.\./)", "](../../", text)
    text = re.sub(r"\]\((#[^)]*)\)", r"](../../docs/PROVED.md\1)", text)
    return re.sub(r"\]\(([A-Z]+\.md)", r"](../../docs/\1", text)


def bullets(page, heading, name):
    """The points of a chapter that name a crate."""
    found = re.search(rf"^#+ {heading}\n(.*?)(?=^# |^## |\Z)", read(page), re.M | re.S)
    points = re.findall(r"^- (.*?)(?=^- |^\S|\n\n|\Z)", found[1] if found else "", re.M | re.S)
    return [moved(it.strip()) for it in points if re.search(rf"\b{name}\b", it)]


def crate_page(name):
    stands_on = crates()
    title, *more = head(name)
    yield f"# {name}\n"
    yield wrapped(title.replace("\n", " "))
    for it in more:
        yield "\n" + it
    on = without_implied(name, stands_on)
    above = [it for it in stands_on if name in without_implied(it, stands_on)]
    yield ""
    yield wrapped(f"Stands on {', '.join(on) or 'no crate of this repository'}; under {', '.join(above) or 'none'}. Its files: [ARCHITECTURE](../../docs/ARCHITECTURE.md#{name}).")
    yield "\n## Proved\n"
    yield chapter(name) or "Each function meets its clauses (`src/`), over the definitions in `specs/`."
    open_points = bullets("docs/PROVED.md", "What is neither", name)
    yield "\n## Not said\n"
    for it in open_points:
        yield f"- {it}"
    yield "- Time, stack and the use of memory."
    yield "\n## Tested\n"
    for it in bullets("docs/TESTED.md", "What is only tested", name):
        yield f"- {it}"
    yield f"- Test functions in this crate: {tests(name)}."
    wrong = edits(name)
    if wrong:
        yield wrapped(f"- The prover refuses each of these wrong bodies (`must-fail/`): {', '.join(it.replace('_', ' ') for it in wrong)}.", "  ")
    yield "\n## Trusted\n"
    kit = [it for it in re.search(rf"^{name}:(.*)$", read("crates.txt"), re.M)[1].split() if it not in stands_on]
    yield wrapped("The toolchain, its logic and std" + (f", and of its crates {', '.join(kit)}" if kit else "") + " ([what is trusted](../../docs/PROVED.md#what-is-trusted)).")


def between(page, text):
    before, rest = page.split(BEGIN, 1)
    return f"{before}{BEGIN}\n\n{text}\n\n{END}{rest.split(END, 1)[1]}"


def made():
    """Each page with what is made in it."""
    yield "docs/ARCHITECTURE.md", between(read("docs/ARCHITECTURE.md"), architecture())
    yield "docs/TESTED.md", between(read("docs/TESTED.md"), "\n".join(tested()))
    for name in crates():
        yield f"crates/{name}/README.md", "\n".join(crate_page(name)) + "\n"


def main():
    stale = []
    for name, text in list(made()):
        path = os.path.join(TOP, name)
        if os.path.exists(path) and read(name) == text:
            continue
        stale.append(name)
        if "--check" not in sys.argv:
            with open(path, "w", encoding="utf-8") as it:
                it.write(text)
    for name in stale:
        print(f"{name}: {'is not as docs/make_pages.py makes it' if '--check' in sys.argv else 'made'}")
    print(f"made pages: {len(stale)} {'stale' if '--check' in sys.argv else 'written'}")
    if stale and "--check" in sys.argv:
        sys.exit(1)


main()
