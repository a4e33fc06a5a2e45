"""What the specs and the sources of crates define and import, and what of that rests on what, as .ci/definitions tells it."""
import functools
import os
import re
from typing import NamedTuple

from judge import TOP, text_of

WORD = r"[A-Za-z_][A-Za-z0-9_'-]*"
HEAD = re.compile(r"\s*(?:(?:pub|abbrev|unfoldable|opaque|record|data)\s+)+([^\s{]\S*)")
TYPE = re.compile(
    r"((?:^///[^\n]*\n)*)(?:^#\[[^\n]*\n)*^(?:pub(?:\([a-z]+\))? )?(?:struct|enum) (\w+)[^{;]*(\{.*?^\}|;|\([^\n]*)", re.M | re.S
)


class Node(NamedTuple):
    """Where a definition stands: a file of the crate's specs, without its ending, or, of a type of the code, one of src/."""

    crate: str
    file: str
    name: str


def read(path):
    """The text of a file of the repository."""
    return text_of(f"{TOP}/{path}")


def files_in(folder, ending):
    """The files with an ending anywhere in a folder, as paths within it, in order."""
    for at, folders, names in os.walk(f"{TOP}/{folder}"):
        folders.sort()
        for name in sorted(it for it in names if it.endswith(ending)):
            yield os.path.relpath(f"{at}/{name}", f"{TOP}/{folder}")


CRATES = [line.split(":")[0].split()[0] for line in read("crates.txt").split("\n") if re.match(r"\w", line)]
# Of each definition its text, and what it says; the operators among them, by their files; what each file imports; the definition of
# each variant; the types of the code, by crate and name; and the imports that lead nowhere.
TEXTS, SAID, SIGNS, IMPORTS, VARIANTS, TYPES, UNRESOLVED = {}, {}, {}, {}, {}, {}, set()


# READING


def imported(text):
    """The names that a text imports, each with the path that it comes from; the aliases of modules have a point behind them."""
    found = {}
    for item in re.findall(r"(?m)^\s*(?:ghost |pub |unfoldable )*use\s+(Rattle\.[^;\n]*(?:\n[ \t}][^;\n]*)*)", text):
        whole = re.fullmatch(r"(Rattle\.[\w.]+?)\.\{(.*)\}\s*", item, re.S)
        if whole:
            for name in filter(None, (it.strip() for it in whole[2].split(","))):
                source, _, alias = name.partition(" as ")
                found[(alias or source).strip()] = (whole[1], source.strip())
        elif re.fullmatch(r"Rattle\.[\w.]+ as \w+\s*", item):
            path, _, alias = item.partition(" as ")
            found[alias.strip() + "."] = (path.strip(), None)
        else:
            path, _, name = item.strip().rpartition(".")
            found[name] = (path, name)
    return found


def note(node, text, said):
    TEXTS[node], SAID[node] = text, said
    if "◌" in node.name:
        SIGNS.setdefault(node[:2], []).append(node.name)


def said_with(above):
    """What a definition says that has no comment of its own."""
    if above is None or not SAID[above]:
        return ""
    return re.sub(r"with `[^`]*`: (?=with)", "", f"with `{above.name}`: {SAID[above]}")


def note_line(node, line):
    """Notes one line more of a definition."""
    TEXTS[node] += "\n" + re.sub(r"--.*", "", line)
    variant = re.match(r"\s+(?:pub )?(\w+) :", line)
    if variant and TEXTS[node].startswith(("pub data", "data")):
        VARIANTS[node.crate, node.file, variant[1]] = node


def note_definitions(crate, file, text):
    """Notes the definitions of a file of specs."""
    said, current, depth = [], None, 0
    for line in text.split("\n"):
        if line.startswith("module "):
            said, current = [], None
        head, indent = HEAD.match(line), len(line) - len(line.lstrip())
        is_field = current and indent > depth and re.search(r"\b(record|data)\b", TEXTS[current].split("\n")[0])
        if line.strip().startswith("--") and not is_field:
            said.append(line.strip()[2:].strip())
        elif head and head[1] not in ("use", "mod") and not is_field:
            above, current, depth = current, Node(crate, file, head[1].rstrip(":")), indent
            note(current, line, " ".join(it for it in said if not it.isupper()) or said_with(above))
            said = []
        elif not line.strip():
            said = []
        elif current and not line.startswith(("use ", "mod ", "pub use")):
            note_line(current, line)


def types_used(crate, text):
    """The types that a source imports from its own crate or from another, each as an import."""
    for use, library in re.findall(r"(?m)^(?:pub )?use ((crate|gw_\w+)::[^;]*);", text):
        for name in re.findall(r"\b([A-Z]\w*)\b", use):
            yield name, (f"type {crate if library == 'crate' else library}", name)


def note_types(crate, file, text):
    """Notes the types of a source, each with the ghost items of its model."""
    for found in TYPE.finditer(text):
        said = " ".join(it.strip() for it in found[1].replace("///", "").split("\n")).strip().split(". ")[0].rstrip(".")
        models = re.findall(rf"(?m)^impl(?:<[^>]*>)? Model for {found[2]}\b.*?^\}}", text, re.S)
        node = Node(crate, file, found[2])
        note(node, re.sub(r"//[^\n]*", "", found[3]) + "\n".join(models), said)
        TYPES.setdefault((crate, node.name), node)


def read_crate(crate):
    """Notes all that the specs and the sources of a crate define and import."""
    for path in files_in(f"crates/{crate}/specs", ".antt"):
        file = path.removesuffix(".antt")
        if not file.endswith("Lib"):
            text = read(f"crates/{crate}/specs/{path}")
            IMPORTS[crate, file] = imported(text)
            note_definitions(crate, file, text)
    for path in files_in(f"crates/{crate}/src", ".rt"):
        text = read(f"crates/{crate}/src/{path}")
        names = IMPORTS[crate, f"src/{path}"] = imported(text)
        for name, source in types_used(crate, text):
            names.setdefault(name, source)
        note_types(crate, f"src/{path}", text)


# WHAT RESTS ON WHAT


def led_to(path, name, seen=(), is_alias=False):
    """The definition to which an import leads; none where it leads into the toolchain's library, or nowhere."""
    if path.startswith("type "):
        return TYPES.get((path[5:], name))
    parts = path.split(".")
    if parts[1] not in CRATES or parts[2] == "proofs" or parts[3] == "contracts":
        return None
    if parts[3] == "declared":
        if parts[-1] == "TheConstants":
            return None
        found = TYPES.get((parts[1], parts[-2] if parts[-1] in ("TheVariants", "TheInside") else parts[-1]))
    else:
        file = "/".join(parts[3:])
        found = VARIANTS.get((parts[1], file, name), Node(parts[1], file, name))
        if found not in TEXTS:
            again = IMPORTS.get((parts[1], file), {}).get(name)
            found = led_to(*again, (*seen, path)) if again and path not in seen else None
    if not found and not is_alias:
        UNRESOLVED.add(f"{path}.{name}")
    return found


def signs_in(crate, file, text):
    """The operators that a file has or imports of which the longest part stands in a text."""
    there = {*SIGNS.get((crate, file), []), *(it for it in IMPORTS[crate, file] if "◌" in it)}
    return {it for it in there if max(it.split("◌"), key=len) in text}


def cited(crate, file, text):
    """The definitions that a text of a file cites."""
    names = IMPORTS[crate, file]
    for word in sorted({*re.findall(rf"(?<![.\w]){WORD}", text)} | signs_in(crate, file, text)):
        own = Node(crate, file, word)
        if own in TEXTS:
            yield own
        elif word in names:
            yield led_to(*names[word])
    for alias, (path, _) in names.items():
        if alias.endswith("."):
            for word in sorted({*re.findall(rf"(?<![.\w]){re.escape(alias)}({WORD})", text)} - {"now", "old", "new", "items"}):
                yield led_to(path, word, is_alias=True)


@functools.cache
def rest_of(node):
    """The definitions on which this one rests itself."""
    return [it for it in cited(node.crate, node.file, TEXTS[node]) if it and it != node]


def closure(begin):
    """All that these rest on, each behind what it rests on itself, where that can be."""
    order, seen = [], set()

    def visit(node):
        if node not in seen:
            seen.add(node)
            for it in rest_of(node):
                visit(it)
            order.append(node)

    for it in begin:
        visit(it)
    return order


def ghosts(crate, of_laws=False):
    """The definitions that the ghost imports of a crate's sources name: those of files of laws, or of the others."""
    for path in files_in(f"crates/{crate}/src", ".rt"):
        if ("laws" in path) == of_laws:
            lines = read(f"crates/{crate}/src/{path}").split("\n")
            text = "\n".join(it for it in lines if "ghost use" not in it and not it.strip().startswith("//"))
            yield from filter(None, cited(crate, f"src/{path}", text))
