"""What docs/api and docs/check read of a source in Rattle: its items, its functions with their clauses, and what a
crate exports. It needs the layout of `rt fmt`: items begin in column 0, methods in column 4."""
import os
import re

from sources import NAME, TOP, files_below, text_of


def functions(text):
    """The functions of a source: whether each is public, its name, the rest of its signature, and kind, name and text
    of each of its clauses."""
    parts = re.split(rf"\b((?:pub )?)fn ({NAME})", text)
    for public, name, rest in zip(parts[1::3], parts[2::3], parts[3::3]):
        begin = re.search(r"\n\s*(?:ensures|requires|\{\n)| \{\n|;\n|\Z", rest).start()
        signature = re.sub(r"\( | ?,? \)", lambda gap: gap[0].strip(" ,"), " ".join(rest[:begin].split()))
        head = re.split(r"\n(?:    )?\{\n", rest)[0][begin:]
        end = r";\s*(?:\n\n|\n\}|\n\s*//|$)|\s*(?:requires|ensures|//|#\[|$)"
        found = re.findall(rf"\b(requires|ensures) ((?:{NAME} )?)\{{(.*?)\}}(?={end})", head, re.S)
        clauses = [(kind, label.strip(), " ".join(said.split())) for kind, label, said in found]
        yield bool(public), name, signature, clauses


class Crate:
    """The names that a crate's sources have, and the clauses of each of its functions, with the fields of the crate's
    records that a clause names."""

    def __init__(self, name):
        self.name, self.names, self.clauses, self.types, self.records = name, set(), {}, set(), {}
        for path in files_below(f"crates/{name}/specs", ".antt"):
            self.read_specs(text_of(path))
        for path in files_below(f"crates/{name}/src", ".rt"):
            self.read_source(text_of(path))

    def read_specs(self, text):
        self.names.update(re.findall(NAME, text))
        parts = re.split(rf"^ *pub record ({NAME})", text, flags=re.M)
        for record, rest in zip(parts[1::2], parts[2::2]):
            self.records[record] = re.findall(rf"^ +pub ({NAME}) :", rest, re.M)

    def read_source(self, text):
        self.names.update(re.findall(NAME, re.sub(r"//.*", "", text)))
        self.types.update(re.findall(rf"\b(?:struct|enum|trait|type) ({NAME})", text))
        for _, function, _, clauses in functions(text):
            found = self.clauses.setdefault(function, set())
            for _, label, said in clauses:
                found.update(filter(None, [label]))
                found.update(field for name in re.findall(NAME, said) for field in self.records.get(name, []))


def exported_names(crate):
    """The names that a crate's root file has for other crates: what it defines, and what it passes on."""
    text, names = (
        text_of(f"crates/{crate}/src/lib.rt") if os.path.isfile(
            os.path.join(TOP, f"crates/{crate}/src/lib.rt")
        ) else "",
        set(),
    )
    for used in re.findall(r"^pub use ([^;]*);", text, re.M):
        names.update(re.findall(NAME, used.partition("{")[2]) or [used.split("::")[-1].strip()])
    return names | set(re.findall(rf"^pub (?:struct|enum|trait|type|const|static|fn|mod) ({NAME})", text, re.M))


def parameters(text):
    """The types of the parameters of a function, whose text begins after its name."""
    inside = text[text.index("(") + 1 : re.search(r"\)(?= *->|\s*(?:where|ensures|requires|;|\{))", text).start()]
    return [" ".join(one.split(":", 1)[-1].split()) for one in re.split(r",(?![^<(\[]*[>)\]])", inside) if one.strip()]


def methods(text, begin):
    """The methods of a trait or an impl that begins with this line, each with its parameters."""
    body = re.search(rf"^{begin}.*?^\}}", text, re.M | re.S)
    return (
        {
            name: parameters(rest)
            for name, rest in re.findall(
                rf"^    (?:final )?fn ({NAME})((?s:.*?)(?=\n    (?:final )?fn |\Z))", body[0], re.M
            )
        }
        if body
        else {}
    )


class Item:
    """A public item: its kind, its name, what it belongs to, its text without contracts and its first sentence."""

    def __init__(self, kind, name, owner, text, said):
        self.kind, self.name, self.owner, self.text, self.said = kind, name, owner, text, said


def first_sentence(lines):
    text = " ".join(line.strip()[3:].strip() for line in lines)
    found = re.match(r"(.*?\.)(?: (?=[A-Z0-9`])|$)", text)
    return (found[1] if found else text).replace(" :", ":")


def without_comments(text):
    return re.sub(r"^\s*//.*$|\s//[^\n\"]*$", "", text, flags=re.M)


def one_line(text):
    text = " ".join(without_comments(text).split())
    text = re.sub(r",? \)", ")", text.replace("( ", "("))
    return re.sub(r", >", ">", text.replace("< ", "<"))


def signature(lines, at):
    """A function's text from `fn` to its contract, body or semicolon."""
    found = []
    for number, line in enumerate(lines[at:]):
        rest = line.strip()
        if number and re.match(r"(requires|ensures)\b|\{|//", rest):
            break
        found.append(rest)
        if rest.endswith(";") or rest.endswith("{"):
            break
    return one_line(" ".join(found)).rstrip("{;, ").removeprefix("pub ")


def body(lines, at):
    """A type's text up to the line that closes it, its ghost fields and attributes left out."""
    found = []
    for line in lines[at:]:
        if not re.match(r"\s*(ghost\b|#\[)", line):
            found.append(line)
        if re.match(r"[})]|.*;$|.*\}$", line) and not line.startswith(" "):
            break
    text = one_line("\n".join(found)).removeprefix("pub ")
    if re.match(r"(const|static) .*: \[", text):
        return text.partition(" = ")[0]
    if text.startswith("struct"):
        text = fields(text)
    return re.sub(r",? \}", " }", text).replace("pub ", "").rstrip(";")


def fields(text):
    """A struct without its private fields."""
    head, brace, rest = text.partition("{")
    if not brace:
        return re.sub(r"\((?!pub ).*\)", "", text)
    public = [one for one in split(rest.rstrip("} ")) if one.startswith("pub ")]
    return f"{head}{{ {', '.join(public)} }}" if public else head.rstrip()


def split(text):
    """The parts of a text between commas outside of brackets."""
    parts, depth, part = [], 0, ""
    for at, sign in enumerate(text):
        depth += (sign in "(<[{") - (sign in ")]}" or sign == ">" and text[at - 1] != "-")
        if sign == "," and depth == 0:
            parts.append(part.strip())
            part = ""
        else:
            part += sign
    return [one for one in [*parts, part.strip()] if one]


def items(path):
    """The public items of a file, in its order."""
    lines, comment, owner, is_trait = text_of(path).splitlines(), [], "", False
    for at, line in enumerate(lines):
        rest = line.strip()
        kind = re.match(rf"pub (struct|enum|trait|type|const|static|fn) ({NAME})", line)
        method = re.match(rf"    (?:pub )?fn ({NAME})", line)
        block = re.match(r"impl(?:<.*?>)? (.*?) ?\{?$", line)
        if rest.startswith("///"):
            comment.append(line)
            continue
        if block:
            owner, is_trait = ("" if " for " in block[1] else re.match(NAME, block[1])[0]), False
        elif kind:
            if kind[1] == "trait":
                owner, is_trait = kind[2], True
                yield Item(
                    "trait",
                    kind[2],
                    "",
                    f"trait {line.removeprefix('pub trait ').rstrip(' {')}",
                    first_sentence(comment),
                )
            else:
                text = signature(lines, at) if kind[1] == "fn" else body(lines, at)
                yield Item(kind[1], kind[2], "", text, first_sentence(comment))
        elif method and owner and (is_trait or rest.startswith("pub ")):
            yield Item("fn", method[1], owner, signature(lines, at), first_sentence(comment))
        elif line and not line.startswith(" ") and not line.startswith("}"):
            owner = owner if line.startswith((")", "where", "{")) else ""
        if rest and not rest.startswith("#["):
            comment = []


def exported(crate):
    """The names that a crate's root exports, and its modules of laws."""
    root = text_of(f"crates/{crate}/src/lib.rt")
    names = []
    for group in re.findall(r"^pub use [\w:]+::(?:\{([^}]*)\}|(\w+))", root, re.M):
        names += [name.strip() for name in (group[0] or group[1]).split(",") if name.strip()]
    names += re.findall(r"^pub type (\w+)", root, re.M)
    return names, sorted(re.findall(r"^pub mod (\w*laws);", root, re.M), key=len)
