#!/usr/bin/env python3
"""Counts what a reader of the sources meets: lines of code, contracts, definitions and proofs, arguments, widths,
repetitions. It reads the layout of `rt fmt`, and takes some seconds.

  bench/measures.py               the table of all crates; docs/working-on-it.md has the numbers of the last landing
  bench/measures.py CRATE..       the same of these crates only
  bench/measures.py --arguments   each definition with more than eight arguments, and each function with more than seven
                                  parameters
  bench/measures.py --repeated    the pairs of functions whose bodies are alike, and each list of the six stack calls

How it counts:

- Code: lines of src/ that aren't blank, comments, `use`, `mod` or contracts. Contracts: lines of `requires`, `ensures`
  and of ghost items except `ghost use`. Lines of specs/ and proofs/ are those that aren't blank; widths are in
  characters.
- Functions: `fn` with a body or a contract. A body that is longer than forty lines counts without its signature.
- Arguments of a definition in specs/: the binders of its own telescope, or the arrows of its type; implicit ones count,
  those of a module around it don't.
- Alike: bodies of at least six lines in two places that are the same once each name is the same name and each literal
  the same literal; `the same lines` are those that are the same to the letter.
- A list of the six stack calls: a run of definitions, arms or goals within thirty lines that names each of the six.
- The way of an authenticate: the functions below, from `main` to a module; each must call the next one.
"""
import collections
import re
import sys

sys.dont_write_bytecode = True
sys.path.insert(1, __file__.rpartition("/")[0] + "/../docs")
from sources import files_below, stands_on, text_of

NINE = (
    "dispatch_core pam_handle pam_library report_step cmd_run cmd_login cmd_check cmd_generate "
    "cmd_all"
).split()
CALLS = ("Authenticate", "SetCred", "AcctMgmt", "OpenSession", "CloseSession", "ChAuthTok")
WAY = (
    "main run run_words run_in_time run_over_files run_talks run_desk pamsess run_under run_stream serve_items "
    "serve_next serve apply_line apply step call_open call passes pass dispatch walk next_answer serve_line "
    "serve_by play"
).split()
IMPORT = re.compile(r"\s*(use |ghost use |pub use |--|//)")
CODE = re.compile(r"\s*(pub(\([a-z]+\))? )?((const|unsafe|async) )*fn (\w+)")
WORD = re.compile(r"[A-Za-z_][A-Za-z0-9_]*|[0-9][0-9a-fx_]*|\"(?:[^\"\\]|\\.)*\"|b?'(?:[^'\\]|\\.)'|\S")
DEFINITION = re.compile(r"( *)(?:abbrev |unfoldable |reducible )*(?:pub )?(?:record|data) (\w+)(?= [({:]|$)|"
                        r"( *)(?:abbrev |unfoldable |reducible )+(?:pub )?(\S+) :|( *)pub (?!use|mod)(\S+) :")


def depth(text):
    return sum(text.count(at) for at in "({[") - sum(text.count(at) for at in ")}]")


def without_texts(line):
    """A line of code without what texts, characters and the rest of a comment hold."""
    line = re.sub(r"\"(?:[^\"\\]|\\.)*\"|b?'(?:[^'\\]|\\.)'", '""', line)
    return re.sub(r"//.*", "", line)


class Function:
    """A function of src/: where it is, its parameters, the lines of each clause, and those of its body."""

    def __init__(self, path, line, name):
        self.path, self.line, self.name = path, line, name
        self.head, self.clauses, self.body, self.ghost = [], [], [], 0

    def parameters(self):
        """The names before the result: those with a type, and self."""
        head = " ".join(self.head)
        opened = head.index("(", head.index(f"fn {self.name}"))
        level, taken, word = 0, [], ""
        for at in head[opened:]:
            level += at in "([{<"
            level -= at in ")]}>" and not word.endswith("-")
            if level == 0:
                break
            if at == "," and level == 1:
                taken.append(word)
                word = ""
            else:
                word += at
        return [one for one in [*taken, word] if one.strip(" (")]


class Source:
    """A file of src/, each line of which is code, a contract, a comment, an import, or blank."""

    def __init__(self, path):
        self.path, self.functions, self.kinds = path, [], collections.Counter()
        self.lines = text_of(path).splitlines()
        self.wide = collections.Counter()
        self.imported = 0
        self.read()

    def note(self, kind, line):
        self.kinds[kind] += 1
        self.wide[kind, 100] += len(line) > 100
        self.wide[kind, 160] += len(line) > 160

    def read(self):
        at = 0
        while at < len(self.lines):
            line = self.lines[at]
            word = line.strip()
            if not word:
                self.kinds["blank"] += 1
            elif word.startswith("//"):
                self.note("comment", line)
            elif re.match(r"(pub(\([a-z]+\))? )?(ghost )?(use|mod) ", word):
                end = self.until(at, lambda text: text.rstrip().endswith((";", "{")))
                for one in self.lines[at:end]:
                    self.note("import", one)
                    self.imported += len(one) + 1
                at = end
                continue
            elif word.startswith("ghost "):
                end = self.until(at, lambda text: text.rstrip().endswith((";", "},")) and depth(text) <= 0)
                for one in self.lines[at:end]:
                    self.note("contract", one)
                at = end
                continue
            elif CODE.match(line):
                at = self.function(at)
                continue
            else:
                self.note("code", line)
            at += 1

    def until(self, at, is_end):
        """The line after the one with which what begins here ends."""
        level = 0
        for end in range(at, len(self.lines)):
            level += depth(without_texts(self.lines[end]))
            if level <= 0 and is_end(self.lines[end]):
                return end + 1
        return len(self.lines)

    def function(self, at):
        """A function from its first line; the line after its last one."""
        one = Function(self.path, at + 1, CODE.match(self.lines[at])[5])
        indent = len(self.lines[at]) - len(self.lines[at].lstrip())
        level = 0
        while at < len(self.lines):
            line = self.lines[at]
            word = line.strip()
            if level == 0 and word.startswith(("requires", "ensures")):
                break
            one.head.append(word)
            self.note("code", line)
            at += 1
            text = without_texts(line)
            if level + depth(text) <= 1 and text.rstrip().endswith("{") or level + depth(text) == 0 and (
                text.rstrip().endswith((";", "}"))
            ):
                level += depth(text)
                break
            level += depth(text)
        while level == 0 and at < len(self.lines) and self.lines[at].strip().startswith(("requires", "ensures", "//")):
            line = self.lines[at]
            if line.strip().startswith("//"):
                self.note("comment", line)
                at += 1
                continue
            end = self.until(at, lambda text: True)
            one.clauses.append(self.lines[at:end])
            for clause in self.lines[at:end]:
                self.note("contract", clause)
            at = end
            if not self.lines[at : at + 1] or self.lines[at].strip() == "":
                # (a blank line between two groups of clauses)
                while at < len(self.lines) and not self.lines[at].strip():
                    self.kinds["blank"] += 1
                    at += 1
        self.functions.append(one)
        if level == 0 and self.lines[at : at + 1] and self.lines[at].strip() == "{":
            self.note("code", self.lines[at])
            level, at = 1, at + 1
        if level == 0:
            return at
        while at < len(self.lines):
            line = self.lines[at]
            at += 1
            if line.rstrip() == " " * indent + "}":
                self.note("code", line)
                break
            kind = "comment" if line.strip().startswith("//") else "code" if line.strip() else "blank"
            self.note(kind, line)
            if kind == "code":
                one.body.append(line.strip())
        return at


class Definitions:
    """A file of specs/ or proofs/: its lines, and what it defines with how many arguments."""

    def __init__(self, path):
        self.path, self.found, self.wide = path, [], collections.Counter()
        lines = text_of(path).splitlines()
        self.comments = [one for one in lines if one.strip().startswith("--")]
        self.lines = [one for one in lines if one.strip() and not one.strip().startswith("--")]
        self.imported = sum(len(one) + 1 for one in lines if re.match(r"\s*(pub )?(use|mod) ", one))
        for one in self.lines:
            self.wide[100] += len(one) > 100
            self.wide[160] += len(one) > 160
        for at, one in enumerate(lines):
            found = DEFINITION.match(one)
            if found and not one.strip().startswith("--"):
                self.define(lines, at, found)

    def define(self, lines, at, found):
        indent = len(next(part for part in (found[1], found[3], found[5]) if part is not None))
        name = found[2] or found[4] or found[6]
        text = lines[at].strip()
        for one in lines[at + 1 :]:
            if found[2] and re.search(r"\bwhere$", text) or not one.strip():
                break
            if len(one) - len(one.lstrip()) <= indent:
                break
            text += " " + one.strip()
        if found[6] and indent or found[2] and ": Type" not in text:
            # (the field of a record, or a value)
            return
        self.found.append((name, at + 1, binders_of(text, name, bool(found[2]))))


def binders_of(text, name, is_record):
    """How many arguments a definition takes."""
    text = text[text.index(name) + len(name) :]
    if is_record:
        level, taken, count = 0, "", 0
        for at in text:
            if level == 0 and at == ":":
                break
            level += at in "({"
            if level:
                taken += at
            if at in ")}":
                level -= 1
                if level == 0:
                    count += names_in(taken)
                    taken = ""
        return count
    text = text.partition(":")[2].strip()
    level, parts, taken = 0, [], ""
    for at in text:
        level += at in "({"
        level -= at in ")}"
        if level == 0 and at == "→":
            parts.append(taken)
            taken = ""
        else:
            taken += at
    return sum(telescope(one.strip()) for one in parts)


def names_in(binder):
    return len(binder.strip("(){}").partition(":")[0].split())


def telescope(part):
    """The arguments before one arrow: those of its binders, or the one type that stands there."""
    found = re.findall(r"[({]([\w\s']+) : (?:[^(){}]|\((?:[^()]|\([^()]*\))*\))*[)}]", part)
    return sum(len(one.split()) for one in found) if found and part[0] in "({" else 1


def alike(functions):
    """The pairs of functions with the same body: to the letter, and once names and literals are the same."""
    letter, shape = collections.defaultdict(list), collections.defaultdict(list)
    for one in functions:
        if len(one.body) >= 6:
            letter["\n".join(one.body)].append(one)
            words = WORD.findall("\n".join(one.body))
            shape[tuple("a" if re.match(r"[A-Za-z_]", it) else "0" if re.match(r"[0-9\"']|b'", it) else it
                        for it in words)].append(one)
    pairs = lambda groups: [(a, b) for group in groups.values() for i, a in enumerate(group) for b in group[i + 1 :]]
    return pairs(letter), pairs(shape)


def six_calls(path):
    """The lines at which a list of the six stack calls begins."""
    lines = text_of(path).splitlines()
    at, found = 0, []
    while at < len(lines):
        if re.search(r"\bAuthenticate\b", lines[at]) and not IMPORT.match(lines[at]):
            named = {}
            for further in range(at, min(at + 30, len(lines))):
                if IMPORT.match(lines[further]):
                    continue
                for call in CALLS:
                    if call not in named and re.search(rf"\b{call}\b", lines[further]):
                        named[call] = further
            if len(named) == 6:
                found.append(at + 1)
                at = max(named.values())
        at += 1
    return found


def way(functions):
    """How many functions of the way there are, each of which calls the next one; or where it is broken."""
    by_name = collections.defaultdict(list)
    for one in functions:
        by_name[one.name].append(" ".join(one.body))
    for caller, callee in zip(WAY, WAY[1:]):
        if not any(re.search(rf"\b{callee}\b\s*(::<[^>]*>)?\(", body) for body in by_name[caller]):
            return f"broken at {caller}"
    return len(WAY)


def ratio(part, whole):
    return f"{part / whole:.2f}" if whole else "-"


class Tree:
    """All that is read of some crates."""

    def __init__(self, crates):
        self.crates = crates
        each = lambda part, ending: [path for crate in crates for path in files_below(f"crates/{crate}/{part}", ending)]
        self.src = [Source(path) for path in each("src", ".rt")]
        self.specs = [Definitions(path) for path in each("specs", ".antt")]
        self.proofs = [Definitions(path) for path in each("proofs", ".antt")]
        self.functions = [one for source in self.src for one in source.functions]
        self.definitions = [(file.path, *one) for file in self.specs for one in file.found]

    def count(self, kind):
        return sum(source.kinds[kind] for source in self.src)

    def wide(self, files, *key):
        at = lambda width: (*key, width) if key else width
        return " / ".join(str(sum(file.wide[at(width)] for file in files)) for width in (100, 160))

    def contracts(self):
        return f"{self.count('code')} / {self.count('contract')} = {ratio(self.count('contract'), self.count('code'))}"

    def over(self, most):
        return sum(count >= most for *_, count in self.definitions)

    def rows(self):
        code, functions = self.count("code"), self.functions
        lines = lambda files: sum(len(file.lines) for file in files)
        clauses = [len(one.clauses) for one in functions]
        letter, shape = alike(functions)
        listed = lambda files: sum(len(six_calls(file.path)) for file in files)
        long = lambda files: sum(len(name) > 24 and "-" not in name for file in files for name, *_ in file.found)
        remarks = lambda files: ratio(sum(len(file.comments) for file in files), lines(files))
        characters = lambda files: sum(len(text_of(file.path)) for file in files) or 1
        imports = lambda files: f"{100 * sum(file.imported for file in files) / characters(files):.0f}"
        bodies = "\n".join(line for one in functions for line in one.body)
        below = stands_on()
        yield "crates; files of src, specs, proofs", (
            f"{len(self.crates)}; {len(self.src)}, {len(self.specs)}, {len(self.proofs)}"
        )
        yield "lines of code, contracts", self.contracts()
        yield "lines of specs; of proofs, for a line of code", "; ".join(
            f"{lines(files)} = {ratio(lines(files), code)}" for files in (self.specs, self.proofs)
        )
        yield "functions; clauses each, mean and most", (
            f"{len(functions)}; {ratio(sum(clauses), len(functions))}, {max(clauses, default=0)}"
        )
        yield "functions with more than 12 clauses", sum(count > 12 for count in clauses)
        yield "functions over 40 lines with their contract; with a body over 40", (
            f"{sum(len(one.body) + len(one.head) + sum(map(len, one.clauses)) > 40 for one in functions)}; "
            f"{sum(len(one.body) > 40 for one in functions)}"
        )
        yield "functions with more than 7 parameters", sum(len(one.parameters()) > 7 for one in functions)
        yield "definitions; with 9, 10, 12 arguments or more; the most", (
            f"{len(self.definitions)}; {self.over(9)}, {self.over(10)}, {self.over(12)}; "
            f"{max((count for *_, count in self.definitions), default=0)}"
        )
        yield "lines over 100 / 160 columns: code", self.wide(self.src, "code")
        yield ".. contracts", self.wide(self.src, "contract")
        yield ".. specs", self.wide(self.specs)
        widest = 100 * sum(file.wide[160] for file in self.proofs) / max(lines(self.proofs), 1)
        yield ".. proofs", f"{self.wide(self.proofs)} ({widest:.1f} % over 160)"
        yield "pairs of bodies alike; the same lines", f"{len(shape)}; {len(letter)}"
        yield "lists of the six stack calls: src, specs, proofs", (
            f"{listed(self.src)}, {listed(self.specs)}, {listed(self.proofs)}"
        )
        yield "`⟦..⟧` in src", sum(text_of(source.path).count("⟦") for source in self.src)
        yield "law calls in bodies", len(re.findall(r"\blaws::\w+\(", bodies))
        yield "definitions by `by_X : Bool →`", sum(
            len(re.findall(r"\bby_\w+ : (?:\{[^}]*\} → )?Bool →", text_of(file.path))) for file in self.specs
        )
        yield "names of more than 24 characters: src, specs, proofs", (
            f"{sum(len(one.name) > 24 for one in functions)}, {long(self.specs)}, {long(self.proofs)}"
        )
        yield "comments for a line: src, specs, proofs", (
            f"{ratio(self.count('comment'), code)}, {remarks(self.specs)}, {remarks(self.proofs)}"
        )
        yield "imports, of all characters: src, specs, proofs", (
            f"{imports(self.src)}, {imports(self.specs)}, {imports(self.proofs)} %"
        )
        yield "dependencies in crates.txt", sum(len(below[crate]) for crate in self.crates)


def main(words):
    if "--help" in words:
        print(__doc__.strip())
        return
    every = list(stands_on())
    named = [word for word in words if not word.startswith("-")]
    if set(words) - set(every) - {"--arguments", "--repeated"}:
        sys.exit(__doc__)
    tree = Tree(named or every)
    if "--arguments" in words:
        for path, name, line, count in sorted(tree.definitions, key=lambda one: -one[3]):
            if count > 8:
                print(f"{count} {path}:{line} {name}")
        for one in sorted(tree.functions, key=lambda one: -len(one.parameters())):
            if len(one.parameters()) > 7:
                print(f"{len(one.parameters())} parameters {one.path}:{one.line} {one.name}")
        return
    if "--repeated" in words:
        letter, shape = alike(tree.functions)
        for a, b in shape:
            how = "same lines" if (a, b) in letter else "same shape"
            print(f"{how}: {a.path}:{a.line} {a.name}, {b.path}:{b.line} {b.name}")
        for file in (*tree.src, *tree.specs, *tree.proofs):
            for line in six_calls(file.path):
                print(f"six calls: {file.path}:{line}")
        return
    print("| Measure | Number |\n|---|--:|")
    for what, number in tree.rows():
        print(f"| {what} | {number} |")
    if not named:
        middle = Tree(NINE)
        print(f"| the nine middle crates: lines of code, contracts | {middle.contracts()} |")
        print(f"| .. definitions with 9 arguments or more; the most | {middle.over(9)}; "
              f"{max(count for *_, count in middle.definitions)} |")
        print(f"| functions on the way of an `authenticate`, from `main` to a module | {way(tree.functions)} |")
        pages = [path for path in files_below(".", ".md") if not path.startswith(("crates", "tests/cases"))]
        print(f"| words of the pages | {sum(len(text_of(path).split()) for path in pages)} |")


if __name__ == "__main__":
    main(sys.argv[1:])
