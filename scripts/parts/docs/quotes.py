"""What the documents quote and point to: code, files and headings.

Each rust block of README.md, docs/*.md and the READMEs of crates is from a file: above it, under the same heading, stands
"From the test `NAME` of [FILE](..)", or "From [FILE](..)". Its lines must stand in one of the files that are linked there,
side by side and in order; indentation and empty lines do not count. If the text says that lines are left out, lines may
be left out between them, within one function. A test that is named must be a function of one of those files.

README.md is short, each page of docs says at its head who its readers are, and their lines are wrapped.

Each link to a file of the repository must lead to a file or a folder that is there, each link to a heading to a heading,
each image must be well-formed, and each path in code type that begins with a folder of the repository must be there; so
must the part of a script that is named behind it, as in `scripts/try-server waiting`."""

import glob
import os
import re
import xml.etree.ElementTree

from lib.checks import check, fail, main
from lib.programs import TOP

LINK = re.compile(r"(?<!`)\[[^\]]*\]\(([^)\s]+)\)")
CODE = re.compile(r"`[^`]*`")
PATH = re.compile(r"`((?:scripts|bench|docs|examples|rows|crates|\.ci)/[\w./-]+)(?: ([^`]*))?`")
PART = re.compile(r"[a-z][\w-]*")  # a script's first word, if it is no placeholder and no option
NAMED = re.compile(r"\btests? ((?:`\w+`(?:,| and)? ?)+)")
MOST_LINES, WIDTH = 130, 120


def pages():
    found = [os.path.join(TOP, "README.md"), os.path.join(TOP, "CHANGELOG.md")]
    for pattern in ("docs/*.md", "crates/*/README.md", "clients/README.md", "clients/*/README.md", "c/README.md", "rows/README.md"):
        found += sorted(glob.glob(os.path.join(TOP, pattern)))
    return found


def lines_of(path):
    with open(path, encoding="utf-8") as file:
        return file.read().splitlines()


class Page:
    """The parts of a document: prose outside of blocks, blocks with the prose above them, and headings."""

    def __init__(self, path):
        self.path, self.name = path, os.path.relpath(path, TOP)
        self.prose, self.blocks, self.headings = [], [], set()
        above, block = [], None
        for number, line in enumerate(lines_of(path), 1):
            if block is not None:
                if line.startswith("```"):
                    self.blocks.append(block)
                    block = None
                else:
                    block["lines"].append(line)
            elif line.startswith("```"):
                block = {"kind": line[3:].split(" ")[0], "at": f"{self.name}:{number}", "above": " ".join(above), "lines": []}
            else:
                self.prose.append((f"{self.name}:{number}", line))
                if re.match(r"#+ ", line):
                    self.add_heading(line.lstrip("#").strip())
                    above = []
                else:
                    above.append(line)

    def add_heading(self, text):
        """The heading's anchor: in small letters, without marks, with hyphens for spaces."""
        text = re.sub(r"\[([^\]]*)\]\([^)]*\)", r"\1", text)
        anchor = re.sub(r"[^\w\- ]", "", text.lower()).replace(" ", "-")
        number, whole = 0, anchor
        while whole in self.headings:
            number += 1
            whole = f"{anchor}-{number}"
        self.headings.add(whole)

    def target(self, link):
        return os.path.normpath(os.path.join(os.path.dirname(self.path), link))


# ---- quotes


def plain(lines):
    return [line.strip() for line in lines if line.strip()]


def functions_of(lines):
    """The lines of each function, by its outermost braces."""
    found, begun = [], None
    for number, line in enumerate(lines):
        if begun is None and re.match(r"\s*(pub(\(crate\))? )?fn ", line):
            begun, indent = number, len(line) - len(line.lstrip())
        if begun is not None and line.rstrip() == " " * indent + "}":
            found.append(lines[begun : number + 1])
            begun = None
    return found


def stands_in(quoted, lines):
    held = plain(lines)
    return any(held[at : at + len(quoted)] == quoted for at in range(len(held)))


def stands_with_gaps(quoted, lines):
    for function in functions_of(lines):
        rest = iter(plain(function))
        if all(line in rest for line in quoted):
            return True
    return False


def check_quote(page, block):
    above = block["above"]
    files = [page.target(link) for link in LINK.findall(above) if link.endswith((".rt", ".rs"))]
    if not re.search(r"\b[Ff]rom\b", above) or not files:
        fail(block["at"], "the text above does not say from which file the code is")
        return
    sources = [lines_of(path) for path in files if os.path.exists(path)]
    stands = stands_with_gaps if "left out" in above else stands_in
    if not any(stands(plain(block["lines"]), source) for source in sources):
        fail(block["at"], "the code does not stand in " + ", ".join(os.path.relpath(path, TOP) for path in files))
    for names in NAMED.findall(above):
        for name in re.findall(r"`(\w+)`", names):
            if not any(re.search(rf"\bfn {name}\b", line) for source in sources for line in source):
                fail(block["at"], f"there is no test {name}")


# ---- the form


def check_form(page):
    """The README's length, the head of a page of docs, and the width of what is no table, in both."""
    lines = lines_of(page.path)
    if page.name == "README.md" and len(lines) > MOST_LINES:
        fail(page.name, f"it has {len(lines)} lines, more than {MOST_LINES}")
    if page.name.startswith("docs/") and not (len(lines) > 2 and lines[2].startswith("**For ")):
        fail(page.name, "its third line does not say for whom it is")
    if page.name == "README.md" or page.name.startswith("docs/"):
        for place, line in page.prose:
            if len(line) > WIDTH and not line.startswith("|"):
                fail(place, f"a line of {len(line)} columns")


# ---- links


def check_links(page, known):
    count = 0
    for place, line in page.prose:
        for link in LINK.findall(CODE.sub(lambda held: "" if "](" in held.group() else held.group(), line)):
            if re.match(r"[a-z]+:", link):
                continue
            count += 1
            file, _, anchor = link.partition("#")
            target = page.target(file) if file else page.path
            if not os.path.exists(target):
                fail(place, f"{link} leads nowhere")
            elif anchor and anchor not in known(target).headings:
                fail(place, f"{link}: there is no such heading")
            elif target.endswith(".svg"):
                check_image(place, target)
        for path, words in PATH.findall(line):
            if not os.path.exists(os.path.join(TOP, path)):
                fail(place, f"there is no {path}")
            elif path.startswith("scripts/try-") and (part := PART.match(words)) and not has_part(path, part[0]):
                fail(place, f"{path} has no part {part[0]}")
    return count


def has_part(script, name):
    module = name.replace("-", "_") + ".py"
    return os.path.exists(os.path.join(TOP, "scripts", "parts", script.removeprefix("scripts/try-"), module))


def check_image(place, path):
    try:
        xml.etree.ElementTree.parse(path)
    except xml.etree.ElementTree.ParseError as error:
        fail(place, f"{os.path.relpath(path, TOP)} is no image: {error}")


def try_documents():
    found = {path: Page(path) for path in pages()}

    def known(path):
        return found[path] if path in found else Page(path)

    quotes = links = 0
    for page in list(found.values()):
        for block in page.blocks:
            if block["kind"] == "rust":
                check_quote(page, block)
                quotes += 1
        links += check_links(page, known)
        check_form(page)
    check(f"{quotes} quotes and {links} links of {len(found)} documents", quotes and links)


def part():
    main(try_documents)
