#!/usr/bin/env python3
"""Prints what has to be read to judge the proof: the definitions, types and views that public clauses reach by names:
scripts/trusted.py [CRATE..]

A file has a line: how many of its lines are reached, without comments, and what they define; then comes the sum. The
clauses are those of all public calls in these crates and those below them, or in all of the programs and the library for
C; of a crate in `PROMISED`, of these alone. What proves something where it is used is not followed.
"""

import re
import sys
from collections import defaultdict, namedtuple

from repository import crates, text_of, tracked

PROGRAMS = ("filterset_cli", "filterset", "filterset_c")
# What docs/PROVED.md promises of crates that nothing but a program is made of.
PROMISED = {"filterset": {"run", "status", "serve_editor"}, "filterset_cli": {"Filtersets"},
            "filterset_loading": {"task_of", "completion_script", "Shell"}, **{f"filterset_{part}": set() for part in
            ("entries", "answers", "asking", "verdicts", "documents", "offers", "server")}}
# Members that prove something where they are used.
PROVING = {"laws", "xor_laws", "total", "matches_partial_cmp", "matches_eq", "respects_eq", "coded", "invariant"}

HIDDEN = {
    "antt": re.compile(r'(?m)(?:^|(?<=\s))--.*$|"(?:\\.|[^"\\])*"'),
    # a quote begins a character unless it ends a name, as in `Alternates'`, or begins a lifetime
    "rt": re.compile(r"""(?ms)//[^\n]*|^\ *\#!?\[[^\n]*\]$|r(\#*)".*?"\1|"(?:\\.|[^"\\])*"
        |(?<![\w'])b?'(?:\\[^']+|[^'\\])'""", re.X),
}
USE = {"antt": re.compile(r"(?m)^(?:pub )?use (.*)$"), "rt": re.compile(r"(?m)^ *(?:pub )?(?:ghost )?use ([^;]*);")}
# What begins at the margin, up to the next such line; brackets and `where` belong to what is above.
BLOCK = re.compile(r"(?m)^(?!where\b)[^\s(){}\[\]].*(?:\n(?:[ (){}\[\]].*|where\b.*)?$)*")
DEFINED = re.compile(r"(?:abbrev |unfoldable |pub )*(?:(data|record) (?:pub )?([^\s({]+)|(module) |([^\s:]+) :(?!\S))")
PARTS = {"data": r"(?m)^  ([^:(){}→\n]+?)(?: :|$)", "module": r"(?m)^  (?:pub )?([^\s:]+) :"}
ITEM = re.compile(r'(pub )?(?:pub\([^)]*\) )?(?:(?:const|unsafe|extern "") )*'
                  r"(fn|struct|enum|trait|impl|ghost(?! use)|mod)\b\s*(\w*)")
WORD = re.compile(r"[^\s(){},;\[\]<>&:]+")

# A definition, or a type with its view: its lines, and the text that names what is to be read with it.
Node = namedtuple("Node", "path name text naming")
# A function, type, trait, impl, module or ghost member.
Item = namedtuple("Item", "path is_pub kind name text")


def blocks(text):
    return [block[0].rstrip() for block in BLOCK.finditer(text)]


def definitions_of(path, text):
    """Yields the definitions of a file, each with the names that mean it: its own, and those of its parts."""
    # those of a block `mutual` are read as if they were not indented
    text = re.sub(r"(?m)^(?:abbrev )?mutual *\n((?:(?:  .*)?\n)*)", lambda block: re.sub("(?m)^  ", "", block[1]), text)
    found, fixity = [], []
    for block in blocks(text):
        if defined := DEFINED.match(block):
            parts = " ".join(re.findall(PARTS.get(defined[1] or defined[3], "$^"), block)).split()
            found.append(([defined[2] or defined[4] or "module", *parts], [*fixity, block]))
        elif found and not re.match(r"(pub )?(use|mod|infix[lr]?) ", block):
            found[-1][1].append(block)
        fixity = [block] if block.startswith("infix") else []
    for names, lines in found:
        yield Node(path, names[0], "\n".join(lines), "\n".join(lines)), [name.strip("◌") for name in names]


def items_of(path, text):
    return [Item(path, *item.groups(), block) for block in blocks(text) if (item := ITEM.match(block))]


def inside(item):
    """Returns the lines between the braces of an item, or all of it if it has none."""
    return re.sub("(?m)^    ", "", item.text.partition("{\n")[2].rpartition("\n}")[0]) or item.text


def types_of(items):
    """Yields the types and traits of a crate. A caller sees the view of one, or else of a struct its public fields."""
    models = [item for item in items if item.kind == "impl" and " Model for " in item.text]
    for item in items:
        if item.kind in ("struct", "enum", "trait"):
            own = (member for model in models if re.match(rf".* Model for {item.name}\b", model.text)
                   for member in items_of(item.path, inside(model)))
            views = [member.text for member in own if member.name in ("Value", "view")]
            fields = [field for field in blocks(inside(item)) if field.startswith("pub")]
            seen = views or (fields if item.kind == "struct" else [item.text])
            yield Node(item.path, item.name, "\n".join([item.text, *views]), "\n".join(seen))


def space_of(path):
    """Returns where the names of a file are looked up: in its crate, or if it has definitions, in its module."""
    return path[len("crates/"):-len(".antt")].replace("/", ".") if path.endswith(".antt") else path.split("/")[1]


class Sources:
    """All definitions and types, and what each name means in each file."""

    def __init__(self):
        self.crates, self.nodes, self.items, self.texts = crates(), defaultdict(list), defaultdict(list), {}
        for path in tracked("crates/*/specs/*.antt", "crates/*/src/*.rt"):
            hide = lambda found: '""' if found[0].endswith('"') else ""
            self.texts[path] = text = HIDDEN[path.rpartition(".")[2]].sub(hide, text_of(path))
            if path.endswith(".rt"):
                self.items[space_of(path)] += items_of(path, text)
            for node, names in definitions_of(path, text) if path.endswith(".antt") else ():
                for name in names:
                    self.nodes[space_of(path), name].append(node)
        for crate, items in self.items.items():
            for node in types_of(items):
                self.nodes[crate, node.name].append(node)
        self.uses = {path: self.uses_of(path, text) for path, text in self.texts.items()}

    def uses_of(self, path, text):
        """Returns the names that a file brings in, each with the spaces and names that it may mean."""
        uses = defaultdict(set)
        for used in USE[path.rpartition(".")[2]].findall(text):
            if used.startswith("Rattle."):
                module, _, names = used.removeprefix("Rattle.").partition(".{")
                for part in names.rstrip("}").split(",") if names else [""]:
                    brought, _, alias = f"{module}.{part.strip()}".removesuffix(".").partition(" as ")
                    inner, _, name = brought.rpartition(".")
                    space, owner = self.place(inner if names else brought)
                    uses[(alias or name).strip("◌")].add((space, owner or (name.strip("◌") if names else "")))
            else:
                crate = re.match(r"\w+", used)[0]
                for name, alias in re.findall(r"(\w+)(?:\s+as\s+(\w+))?", used):
                    uses[alias or name].add((crate if crate in self.crates else space_of(path), name))
        return uses

    def place(self, module):
        """Returns the space of a module of antt, with the type if it is generated for one."""
        crate, *rest = module.split(".")
        if rest[1:2] in (["declared"], ["contracts"]):
            names = (re.sub("(PartialEq|Eq|Model|Clone)$", "", part) for part in rest)
            return crate, next((name for name in names if (crate, name) in self.nodes), "")
        return module, ""

    def meant(self, space, name):
        """Returns the nodes that a name means in a space, which may have it from another."""
        if (space, name) in self.nodes:
            return self.nodes[space, name]
        path = f"crates/{space.replace('.', '/')}.antt" if "." in space else f"crates/{space}/src/lib.rt"
        places = self.uses.get(path, {}).get(name, ())
        return [node for place in places if place[0] != space for node in self.meant(*place)]

    def named_in(self, path, text):
        for word in WORD.findall(text):
            first, *rest = [part for part in word.split(".") if part] or [""]
            for space, name in self.uses[path].get(first) or [(space_of(path), first)]:
                yield from self.meant(space, name or (rest or [""])[0])

    def public(self, crate):
        """Yields what a crate promises: public functions, traits and members of impls, each with its path."""
        root = f"crates/{crate}/src/lib.rt"
        pub = [item for item in self.items[crate] if item.is_pub]
        modules = (item.name for item in pub if item.kind == "mod" and item.path == root)
        paths = {root, *(f"crates/{crate}/src/{name}.rt" for name in modules)}
        exported = re.findall(r"\w+", " ".join(re.findall(r"(?m)^pub use ([^;]*);", self.texts.get(root, ""))))
        names = PROMISED.get(crate, {*exported, *(item.name for item in pub if item.path in paths)})
        if lost := PROMISED.get(crate, set()) - {item.name for item in pub}:
            raise LookupError(f"{crate} has no public {', '.join(lost)}")
        for item in self.items[crate]:
            head, members = "", [item] if item.is_pub and item.name in names else []
            if item.kind == "impl" and " Model for " not in item.text:
                head = re.sub(r"^impl(<(?:[^<>]|->|<[^<>]*>)*>)?\s*", "", re.split(r"\s(?:where\s|\{)", item.text)[0])
                if names & set(re.findall(r"\w+", head)):
                    members = [one for one in items_of(item.path, inside(item)) if one.is_pub or " for " in head]
            for member in members:
                is_fn = member.kind == "fn" and re.search("(?m)^ +(requires|ensures|decreases)", member.text)
                if is_fn or member.kind in ("trait", "ghost") and member.name not in PROVING:
                    yield item.path, f"{head} " + member.text.partition("\n{")[0]

    def below(self, crate):
        """Returns the crate and those of the repository that it uses, directly or not."""
        return {crate}.union(*(self.below(name) for name in self.crates[crate] if name in self.crates))

    def reached(self, *names):
        """Returns the nodes that public clauses reach, by files: those of these crates, or all, and of those below."""
        below = set().union(*map(self.below, names or PROGRAMS))
        roots = [root for crate in sorted(below) for root in self.public(crate)]
        found, todo = {}, [node for root in roots for node in self.named_in(*root)]
        for node in todo:
            if node not in found:
                found[node] = None
                todo += self.named_in(node.path, node.naming)
        files = defaultdict(list)
        for node in sorted(found):
            files[node.path].append(node)
        return files


def lines_of(nodes):
    return sum(bool(line.strip()) for node in nodes for line in node.text.splitlines())


if __name__ == "__main__":
    reached = Sources().reached(*sys.argv[1:])
    for place, nodes in reached.items():
        print(f"{place}: {lines_of(nodes)}: {', '.join(node.name for node in nodes)}")
    print(sum(map(lines_of, reached.values())))
