"""The pages: their prose, blocks, headings and links."""
import os
import re

from sources import TOP, files_below, text_of

WIDTH = 120
README_LINES = 120
MOST_WORDS = 40_000
MANUAL = "docs/pamsess.1"
# Those of formats are written, and those of scripts are made of the scripts (docs/manuals).
MANUALS = (
    MANUAL,
    "docs/pamsess-script.5",
    "docs/pamsess-report.5",
    *(f"docs/pamsess-{name}.1" for name in ("check-all", "explain", "stand-in", "try", "ways", "what-if")),
)
# Directories of the repository, whose paths pages name in backquotes.
DIRECTORIES = "bench|bin|completions|crates|docs|editors|examples|lib|libpam|tests"


def pages():
    found = ["README.md", "CHANGELOG.md", "CONTRIBUTING.md", "SECURITY.md"]
    for directory in ("docs", "editors", "examples", "tests", "bench", "libpam"):
        found += files_below(directory, ".md")
    found.append("crates/README.md")
    return found


class Block:
    """An indented or fenced block of a page: its first line's number, its lines, and the paragraph before it."""

    def __init__(self, line, before):
        self.line, self.lines, self.before = line, [], before


class Page:
    """A page's prose with numbers, its blocks, its headings and its links."""

    def __init__(self, path):
        self.path, self.prose, self.blocks, self.headings, self.links = path, [], [], [], []
        self.lines = text_of(path).splitlines()
        self.take_apart()
        for number, line in self.prose:
            plain = re.sub(r"`[^`]*`", "", line)
            self.links += [(number, to) for to in re.findall(r"\]\(([^)\s]+)\)", plain)]
            self.headings += [slug(line.lstrip("# "))] if line.startswith("#") else []

    def take_apart(self):
        fence, block, paragraph, after_blank = False, None, [], True
        for number, line in enumerate(self.lines, 1):
            is_fence = line.lstrip().startswith("```")
            indented = line.startswith("    ") and (after_blank or block) and not fence
            if is_fence:
                fence = not fence
                block = self.begin(number + 1, paragraph) if fence else None
            elif fence:
                block.lines.append(line)
            elif indented:
                block = block or self.begin(number, paragraph)
                block.lines.append(line[4:])
            elif not line.strip() and block:
                block.lines.append("")
            else:
                block = None
                self.prose.append((number, line))
                paragraph = (
                    paragraph + [line] if line.strip() and not after_blank else [line] if line.strip() else paragraph
                )
            after_blank = not line.strip()

    def begin(self, line, paragraph):
        self.blocks.append(Block(line, " ".join(paragraph)))
        return self.blocks[-1]


def slug(heading):
    plain = re.sub(r"[`*]|\]\([^)]*\)|\[", "", heading).strip().lower()
    return re.sub(r"[^\w\- ]", "", plain).replace(" ", "-")


def links(all_pages):
    """Every link leads to a file, and to a heading if it names one; every path of the repository in backquotes
    exists."""
    for page in all_pages.values():
        for number, line in page.prose:
            for path in re.findall(rf"`(?:\./)?((?:{DIRECTORIES})/[^`\s]*)`", line):
                is_there = any(os.path.exists(os.path.join(TOP, at, path)) for at in ("", "tests/cases"))
                if not is_there and not re.search(r"[A-Z]{4}|[*\[]|/out\b", path):
                    yield f"{page.path}:{number}: there is no {path}"
        for number, link in page.links:
            if re.match(r"[a-z]+:", link):
                continue
            path, _, heading = link.partition("#")
            to = os.path.normpath(os.path.join(os.path.dirname(page.path), path)) if path else page.path
            if not os.path.exists(os.path.join(TOP, to)):
                yield f"{page.path}:{number}: {link} leads to no file"
            elif heading and (to not in all_pages or heading not in all_pages[to].headings):
                yield f"{page.path}:{number}: {link}: no such heading"


def reach(all_pages):
    """Every page is linked from README, or from a page that is."""
    seen, left = set(), ["README.md"]
    while left:
        path = left.pop()
        if path not in seen:
            seen.add(path)
            page = all_pages.get(path)
            for _, link in page.links if page else ():
                left.append(os.path.normpath(os.path.join(os.path.dirname(path), link.partition("#")[0] or path)))
    for path in [*all_pages, *MANUALS]:
        folder = os.path.dirname(path)
        if path not in seen and not (path.endswith("/README.md") and folder in seen):
            yield f"{path}: no page links to it"


def width(all_pages):
    """Prose is at most 120 columns wide; README has at most 120 lines, tables and blocks counted."""
    for page in all_pages.values():
        lines = enumerate(page.lines, 1) if page.path == "README.md" else page.prose
        for number, line in lines:
            if len(line) > WIDTH and (page.path == "README.md" or not line.lstrip().startswith("|")):
                yield f"{page.path}:{number}: {len(line)} columns"
    if len(all_pages["README.md"].lines) > README_LINES:
        yield f"README.md: {len(all_pages['README.md'].lines)} lines"


def words_of(page):
    """How many words of a page are read: of prose and tables, without blocks, the bars of tables and what links lead
    to."""
    text = " ".join(re.sub(r"\]\([^)]*\)", "]", line).replace("|", " ") for _, line in page.prose)
    return sum(any(sign.isalnum() for sign in word) for word in text.split())


def length(all_pages):
    """All pages together have at most 40,000 words (docs/check --words counts them)."""
    count = sum(map(words_of, all_pages.values()))
    if count > MOST_WORDS:
        yield f"the pages have {count} words, and at most {MOST_WORDS} are wanted"


def tables(all_pages):
    """No rows of a table have run together into one line, and no row is cut into two."""
    for page in all_pages.values():
        for number, line in page.prose:
            if "| |-" in line:
                yield f"{page.path}:{number}: rows in one line"
            if line.startswith("|") and not line.rstrip().endswith("|"):
                yield f"{page.path}:{number}: half a row"
