"""Definitions of `crates/*/specs/*.antt` and types of `crates/*/src/*.rt`, as text with what each
cites. Names of the kit and of its ported crates are left out."""
import re
from pathlib import Path

CRATES = Path(__file__).resolve().parents[2] / "crates"
BUILT_IN = {"Type", "Unit"}
WORD = re.compile(r"[A-Za-z_]\w*(?:\.[A-Za-z_]\w*)*")
USE = re.compile(r"^ *(?:ghost )?use ([\w.]+?)(?:\.\{(.*)\}| as (\w+));?$")
RUST_USE = re.compile(r"^use (\w+)((?:::\w+)*)::(?:\{([^}]*)\}|(\w+));", re.M)
HEAD = re.compile(r"^( *)(?:pub )?(?:abbrev|unfoldable|(record|data)) (?:pub )?(\S+)")
RUST_HEAD = r"^( *)(?:pub(?:\(\w+\))? )?(?:struct|enum|const|type) {}\b"
DECLARED_HEAD = RUST_HEAD.replace("type", "type|trait")
LABEL = re.compile(r"^ +(?:pub )?(\w+) :", re.M)


class Unresolved(Exception):
    """A name that is cited and stands nowhere."""


class Item:
    """A definition, or a part of the code that definitions cite, with the comment above it."""

    def __init__(self, name, scope, comment, lines=(), binds=""):
        self.name, self.scope, self.comment = name, scope, comment
        self.lines, self.binds = list(lines), binds
        self.is_code = scope.path.suffix == ".rt"
        self.is_whole = self.is_code

    def cited(self):
        """The items that this one names, each once, in the order of its text."""
        found = {}
        for part in self.parts():
            for item in self.scope.items_in(part, self.bound_in(part)):
                found[item] = True
        found.pop(self, None)
        return list(found)

    def parts(self):
        """The equations of a definition, each with variables of its own."""
        if self.is_whole:
            return ["\n".join(self.lines)]
        parts = [[]]
        for line in self.lines:
            if line.lstrip().startswith(self.name + " ") or self.name.startswith("◌"):
                parts.append([])
            parts[-1].append(line)
        return ["\n".join(part) for part in parts if part]

    def bound_in(self, part):
        """The names that a part binds itself, or has as labels of fields."""
        names = set(re.findall(r"(?:[({;]|\s)(\w+) =(?=\s)", part)) | set(LABEL.findall(part))
        names.update(re.findall(r"(\w+) ←", part) + re.findall(r"\blet (\w+)", part))
        for binder in re.findall(r"λ ([^.]*)\.|[({]([\w ]+) :", self.binds + part):
            names.update("".join(binder).split())
        left = re.match(rf" *{re.escape(self.name)} ((?:{{[^}}]*}}|[^={{])*)=", part)
        for word in WORD.findall(left.group(1) if left else ""):
            if word[0].islower() or not self.scope.knows(word):
                names.add(word)
        return names - {self.name}


class Scope:
    """A file: its own items, and the names that it brings in."""

    def __init__(self, path):
        self.path, self.items, self.brought, self.aliases = path, {}, {}, {}
        self.place = path.relative_to(CRATES)
        self.crate = self.place.parts[0]
        self.lines = path.read_text(encoding="utf-8").split("\n")
        for line in self.lines:
            if re.match(" *ghost use " if path.suffix == ".rt" else "use ", line):
                use = USE.match(line)
                if not use:
                    raise Unresolved(f"{self.place}: what does this bring in? {line}")
                self.bring(*use.groups())
        if path.suffix == ".antt":
            self.read_definitions()
        else:
            self.bring_types()

    def bring(self, module, names, alias):
        if alias:
            self.aliases[alias] = module
        for name in filter(None, (names or "").split(", ")):
            cited, _, local = name.partition(" as ")
            self.brought[local or cited] = (module, cited)

    def bring_types(self):
        for crate, _, names, name in RUST_USE.findall("\n".join(self.lines)):
            crate = self.crate if crate == "crate" else crate
            for name in re.findall(r"[A-Z]\w+", names or name):
                if (CRATES / crate).is_dir():
                    self.brought.setdefault(name, (crate, name))

    def read_definitions(self):
        comment, item, indent, binds = [], None, "", ""
        for line in self.lines:
            head = HEAD.match(line)
            if head:
                indent, kind, name = head.groups()
                item = self.items[name] = Item(name, self, comment, binds=binds if indent else "")
                item.is_whole = bool(kind)
            elif line.startswith("module "):
                item, binds = None, line
            if line.lstrip().startswith("--") or not line.strip():
                comment = comment + [line] if line.strip() else []
            elif item and not re.match("use |infix", line):
                equation = not head and not line.startswith(indent + " ")
                owner = self.items.get(line.split()[0], item) if equation else item
                owner.lines.append(line)
                comment = []
        for item in list(self.items.values()):
            if re.match("(pub )?data ", item.lines[0]):
                for constructor in LABEL.findall("\n".join(item.lines)):
                    self.items.setdefault(constructor, item)

    def knows(self, name):
        return name in self.items or name in self.brought or name in BUILT_IN

    def items_in(self, text, bound):
        """The items that a text of this file names."""
        text = re.sub(r'"[^"]*"|--.*|//.*', "", text)
        for word in WORD.findall(text):
            head, *rest = word.split(".")
            if head in bound:
                continue
            if head in self.aliases and rest:
                yield from found(self.aliases[head], rest[0], self)
            elif head in self.brought:
                yield from found(*self.brought[head], self)
            elif head in self.items:
                yield self.items[head]
            elif head[0].isupper() and not self.knows(head):
                yield from self.own_type(head)
        for name in [*self.brought, *self.items]:
            if "◌" in name and all(piece in text for piece in name.split("◌")):
                yield from found(*self.brought[name], self) if name in self.brought \
                    else [self.items[name]]

    def own_type(self, name):
        """A type of this file, where it is one of the code; else nothing may have such a name."""
        if self.path.suffix == ".antt":
            raise Unresolved(f"{self.place}: nothing brings in {name}")
        if any(re.match(RUST_HEAD.format(name), line) for line in self.lines):
            yield rust_item(self, name)


SCOPES = {}


def scope_of(path):
    if path not in SCOPES:
        SCOPES[path] = Scope(path)
    return SCOPES[path]


def found(module, name, scope):
    """The item of that name in a module, or nothing where the module is none of these crates."""
    if "." not in module:
        return type_of_crate(module, name)
    root, crate, *parts = module.split(".")
    if root != "Rattle" or not (CRATES / crate).is_dir() or parts[1] == "contracts":
        return []
    if parts[1] == "declared":
        return [declared(crate, parts[2:], name)]
    path = CRATES / crate / ("/".join(parts) + ".antt")
    if not path.is_file() or name not in scope_of(path).items:
        raise Unresolved(f"{scope.place}: {module} has no {name}")
    return [scope_of(path).items[name]]


def declared(crate, parts, name):
    """A type or a trait of the code, by the module in which its declaration stands."""
    inside = parts[-1].startswith("The") and parts.pop()
    wanted = name if inside == "TheConstants" else parts.pop()
    path = CRATES / crate / "src" / ("/".join(parts or ["lib"]) + ".rt")
    if not path.is_file():
        raise Unresolved(f"{path.relative_to(CRATES)}: no such file, for {wanted}")
    item = rust_item(scope_of(path), wanted, DECLARED_HEAD)
    if inside == "TheVariants" and not re.search(rf"\b{name}\b", "\n".join(item.lines)):
        raise Unresolved(f"{path.relative_to(CRATES)}: {wanted} has no {name}")
    return item


def type_of_crate(crate, name):
    """A type that another file of the code brings in; traits and functions are none."""
    for path in sorted((CRATES / crate / "src").rglob("*.rt")):
        yield from scope_of(path).own_type(name)


def rust_item(scope, name, head=RUST_HEAD):
    if name not in scope.items:
        scope.items[name] = read_rust(scope, head.format(name), name, "}")
    return scope.items[name]


def read_rust(scope, head, name, end, start=0):
    """A part of a Rust file, to the line that ends it, with the comments and attributes above."""
    lines = enumerate(scope.lines[start:], start)
    at = next((at for at, line in lines if re.match(head, line)), None)
    if at is None:
        raise Unresolved(f"{scope.place}: no {name}")
    top = at
    while re.match(r" *(///|#\[)", scope.lines[top - 1]):
        top -= 1
    indent, last = re.match(head, scope.lines[at]).group(1), at
    if not re.search("[{};]$" if end == "{" else "[};]$", scope.lines[at]):
        while not re.match(indent + end, scope.lines[last]):
            last += 1
    return Item(name, scope, scope.lines[top:at], scope.lines[at:last + 1])
