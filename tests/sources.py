"""Reads the repository's Rattle sources by text: items, functions with their clauses, imports and mutants.

It is not a parser. It relies on the layout that `rt fmt` gives: each item and each function begins a line.
"""
import functools
import os
import re

ROOT = os.path.dirname(os.path.dirname(os.path.abspath(__file__)))

# Comments, texts and characters; a quote after a name is a part of the name, as in `x'`.
HIDDEN = re.compile(r"""//[^\n]*|"(?:\\.|[^"\\])*"|(?:\bb|(?<![\w']))'(?:\\[^'\n]*'?|[^\\'\n])'""")
OPEN, CLOSE = "([{", ")]}"
ITEM = re.compile(r"^([ \t]*)(pub(?:\([a-z]+\))? )?(?:unsafe )?(impl|trait|struct|enum|const|static|type|mod)\b([^\n]*)", re.M)
FUNCTION = re.compile(r"^[ \t]*(pub(?:\([a-z]+\))? )?(?:const |unsafe )*fn (\w+)", re.M)
BRACKET, ENDS, STARTS = re.compile(r"[(\[{)\]}]"), re.compile(r"[{;]"), re.compile(r"[(\[{;]")
CLAUSE = re.compile(r"\b(requires|ensures|decreases)(?:\s+(\w+))?\s*$")
CALLED, HANDED_ON = re.compile(r"\b(\w+)(?:::<[^()\n]*>)?\("), re.compile(r"(?<![\w.])(\w+)[,)\]]")
LOCAL = re.compile(r"(?:\blet (?:mut )?|\bmut |\||\b(?:Some|Ok|Err)\()(\w+)|\b(\w+):(?!:)")
GHOST_USE = re.compile(r"ghost use Rattle\.([\w.]+)(?:\.\{([^}]*)\}| as (\w+));", re.S)
GHOST_MEMBER = re.compile(r"^\s+ghost (\w+):", re.M)
USE = re.compile(r"^[ \t]*(pub )?use ([\w:]+?)(?:::\{([^}]*)\})?(?: as (\w+))?;", re.M)


class Item:
    """A type, trait, block of methods, constant or function: its kind, name, visibility and place in the file."""

    def __init__(self, kind, name, is_public, start, end):
        self.kind, self.name, self.is_public, self.start, self.end = kind, name, is_public, start, end


class Function(Item):
    """A function or method, with the name of its type, its signature, its clauses and the place of its body."""

    def __init__(self, name, is_public, start, end, owner, signature, clauses, body):
        super().__init__("fn", name, is_public, start, end)
        self.owner, self.signature, self.clauses, self.body = owner, signature, clauses, body
        self.path = f"{owner.name}::{name}" if owner else name
        self.is_private = not is_public and not (owner and (owner.kind == "trait" or owner.trait))
        self.takes_more = bool(re.search(r"\(\s*(?:&(?:'\w+ )?)?(?:mut )?self\s*,\s*\w", signature))


class Source:
    """One file of a crate."""

    def __init__(self, crate, path, text):
        self.crate, self.path, self.text = crate, path, text
        self.code = hide(text)
        self.items = [item_at(self.code, found) for found in ITEM.finditer(self.code)]
        self.functions = [self.function_at(found) for found in FUNCTION.finditer(self.code)]

    def function_at(self, found):
        owner = next((it for it in self.items if it.kind in ("impl", "trait") and it.start < found.start() < it.end), None)
        signature_end, clauses, body = header(self.code, found.end())
        start = found.start() + len(found[0]) - len(found[0].lstrip())
        signature = unindented(self.text[found.start() : signature_end])
        return Function(found[2], (found[1] or "") == "pub ", start, body[1], owner, signature, clauses, body)

    def has_type(self, name):
        """Returns whether the file declares this struct or enum."""
        return any(it.kind in ("struct", "enum") and it.name == name for it in self.items)

    def body_of(self, function):
        return self.code[slice(*function.body)]

    def around(self, place):
        """Returns the function at a place, or else the item, or None."""
        inside = [it for it in self.functions + self.items if it.start <= place < it.end]
        return max(inside, key=lambda it: it.start, default=None)

    def above(self, item):
        """Returns the attributes and lines of documentation above an item."""
        lines = self.text[: item.start].split("\n")[:-1]
        first = len(lines)
        while first and lines[first - 1].strip().startswith(("///", "#[")):
            first -= 1
        return [it.strip() for it in lines[first:]]

    def doc_of(self, item):
        """Returns the documentation above an item, without its slashes."""
        return "\n".join(it[3:].strip() for it in self.above(item) if it.startswith("///"))

    @functools.lru_cache(maxsize=None)
    def functions_used(self, function):
        """Returns the names that a body calls or may pass on as arguments. Leaves out local names."""
        text = self.code[function.start : function.end]
        local = {it[0] or it[1] for it in LOCAL.findall(text)}
        return set(CALLED.findall(self.body_of(function))) | set(HANDED_ON.findall(self.body_of(function))) - local

    def is_test(self, function):
        return "#[test]" in self.above(function)

    @functools.lru_cache(maxsize=None)
    def imports(self):
        """Returns the imported names: `{name here: (path, name there, whether it is re-exported)}`."""
        found = {}
        for use in USE.finditer(self.code):
            path, listed = (use[2], use[3]) if use[3] is not None else use[2].rpartition("::")[::2]
            for name in names_in(listed + (f" as {use[4]}" if use[4] else "")):
                there, _, here = name.partition(" as ")
                found[here or there] = (path, there, bool(use[1]))
        return found

    def definitions_at(self, item):
        """Returns where the names that a clause of this item may cite come from: `{name: module path}`."""
        blocks = [it for it in self.items if it.kind in ("impl", "trait", "mod")]
        found = {}
        for use in GHOST_USE.finditer(self.code):
            inside = [it for it in blocks if it.start < use.start() < it.end]
            if all(it.start < item.start < it.end for it in inside):
                names = [f"{use[3]}."] if use[3] else names_in(use[2])
                found.update({name: use[1] for name in names})
        return found


def names_in(listed):
    """Splits an import's list at its commas."""
    return [it.strip() for it in listed.split(",") if it.strip()]


def hide(text):
    """Returns the text with spaces in place of comments, texts and characters."""
    return HIDDEN.sub(lambda found: re.sub(r"[^\n]", " ", found[0]), text)


def closing(code, place):
    """Returns the place after the bracket that closes the one here."""
    depth = 0
    for found in BRACKET.finditer(code, place):
        depth += 1 if found[0] in OPEN else -1
        if depth == 0:
            return found.end()
    return len(code)


def item_at(code, found):
    """Reads an item from its first line."""
    kind, rest = found[3], found[4]
    end = ENDS.search(code, found.start(4))
    last = len(code) if not end else closing(code, end.start()) if code[end.start()] == "{" else end.end()
    trait, name = "", re.match(r"\s*(\w+)", rest)
    if kind == "impl":
        head = code[found.start(4) : end.start()]
        head = re.sub(r"\A<(?:[^<>]|<[^<>]*>)*>", "", head.partition(" where")[0]).strip()
        trait, _, of = head.rpartition(" for ")
        name = re.match(r"(\w+)", of)
    item = Item(kind, name[1] if name else "", (found[2] or "") == "pub ", found.start() + len(found[1]), last)
    item.trait = re.split(r"[<\s]", trait.strip())[0] if trait else ""
    return item


def header(code, place):
    """Reads from a function's name on: the end of its signature, its clauses and its body."""
    signature_end, clauses = 0, []
    while True:
        found = STARTS.search(code, place)
        if not found:
            return signature_end or len(code), clauses, (len(code), len(code))
        end = closing(code, found.start()) if found[0] != ";" else found.end()
        clause = CLAUSE.search(code, place, found.start()) if found[0] == "{" else None
        if clause:
            signature_end = signature_end or clause.start()
            clauses.append((clause[1], clause[2] or "", code[found.end() : end - 1]))
        elif found[0] in "{;":
            return signature_end or found.start(), clauses, (found.start(), end)
        place = end


def unindented(text):
    """Returns a signature without its indentation and without a `where` that has no bound."""
    lines = re.sub(r"\s+where\s*\Z", "", text.rstrip()).strip("\n").split("\n")
    indent = min(len(it) - len(it.lstrip()) for it in lines if it.strip())
    return "\n".join(it[indent:].rstrip() for it in lines if it.strip())


@functools.lru_cache(maxsize=None)
def crates():
    """Returns each crate of crates.txt with the crates that it uses."""
    found = {}
    with open(f"{ROOT}/crates.txt", encoding="utf-8") as lines:
        for line in lines:
            head, colon, rest = line.partition("#")[0].partition(":")
            if colon:
                found[head.split()[0]] = rest.split()
    return found


@functools.lru_cache(maxsize=None)
def sources_of(crate):
    """Reads the files of a crate's folder src, by path."""
    found = {}
    for at, folders, files in os.walk(f"{ROOT}/crates/{crate}/src"):
        folders.sort()
        for name in sorted(it for it in files if it.endswith(".rt")):
            path = os.path.relpath(f"{at}/{name}", f"{ROOT}/crates/{crate}")
            with open(f"{at}/{name}", encoding="utf-8") as file:
                found[path] = Source(crate, path, file.read())
    return found


# The folders of a crate that hold mutants, the gate's first.
GATE_MUTANTS, OTHER_MUTANTS = "wrong-bodies/gate", "wrong-bodies"


class Mutant:
    """An edit of a crate: its name, folder, the names of what it changes, the edited texts, and why it cannot be applied.

    If it changes something other than functions too, it may name the function with the fault, by a line `in: PATH`.
    """

    def __init__(self, crate, folder, name):
        self.crate, self.folder, self.name = crate, folder, name
        self.in_gate = folder == GATE_MUTANTS
        self.changed, self.prover_paths, self.places, self.edits, self.fault = [], [], [], [], ""
        self.faulty = ""
        self.path = f"crates/{crate}/{folder}/{name}.edit"
        with open(f"{ROOT}/{self.path}", encoding="utf-8") as file:
            self.apply(file.read())

    def apply(self, edit):
        """Applies the edit as the gate does: each `old:` text is in its file once, and `new:` takes its place."""
        path, old, texts, pairs = "", "", {}, 0
        for line in edit.split("\n"):
            if line.startswith("in: "):
                self.faulty = line.removeprefix("in: ").strip()
            elif line.startswith("file: "):
                path = line.removeprefix("file: ").strip()
            elif line.startswith("old: "):
                old = line.removeprefix("old: ")
            elif line.startswith("new:"):
                if not path or not old or not os.path.isfile(f"{ROOT}/crates/{self.crate}/{path}"):
                    self.fault = "a `new:` line follows no `file:` and `old:` line of an existing file"
                    return
                texts.setdefault(path, [original(self.crate, path)] * 2)
                count = texts[path][1].count(old)
                if count != 1:
                    self.fault = f"an `old:` text is in {path} {count} times, not once"
                    return
                self.note(path, texts[path][1], old)
                new = line.removeprefix("new:").removeprefix(" ")
                texts[path][1] = texts[path][1].replace(old, new)
                self.edits.append((path, old, new))
                old, pairs = "", pairs + 1
        if not pairs or all(was == now for was, now in texts.values()):
            self.fault = "it changes nothing"

    def note(self, path, text, old):
        """Notes the function, or else the item, at the changed place."""
        if not path.endswith(".rt"):
            self.prover_paths.append(None)
            return
        source = sources_of(self.crate)[path]
        if text != source.text:
            source = Source(self.crate, path, text)
        place = text.index(old)
        found = source.around(place + len(old) - len(old.lstrip()))
        is_function = isinstance(found, Function)
        name = found.path if is_function else found.name if found else path
        if (name, is_function) not in self.changed:
            self.changed.append((name, is_function))
        # (an edit outside any item is one of the imports)
        if found:
            self.prover_paths.append(prover_path(sources_of(self.crate), path, found) if is_function else None)
            self.places.append((path, found.path if is_function else found.name))

    def names(self):
        """Returns the changed functions. If no function is changed: the changed items, or else the file."""
        functions = [name for name, is_function in self.changed if is_function]
        return functions or [name for name, _ in self.changed]


def prover_path(sources, path, function):
    """Returns the path below the crate under which the prover knows a function.

    A method of a trait is named by its module, and another method by its type and the module of the type.
    """
    in_trait = function.owner and (function.owner.kind == "trait" or function.owner.trait)
    if function.owner and not in_trait:
        path = next((it for it, source in sources.items() if source.has_type(function.owner.name)), path)
    module = path.removeprefix("src/").removesuffix(".rt").replace("/", "::")
    names = [module] * (module not in ("lib", "main")) + [function.path] * (not in_trait)
    return "::".join(names) or None


@functools.lru_cache(maxsize=None)
def original(crate, path):
    with open(f"{ROOT}/crates/{crate}/{path}", encoding="utf-8") as file:
        return file.read()


@functools.lru_cache(maxsize=None)
def mutants():
    """Reads all mutants, by crate and name."""
    found = []
    for crate in crates():
        for folder in (GATE_MUTANTS, OTHER_MUTANTS):
            at = f"{ROOT}/crates/{crate}/{folder}"
            names = sorted(it for it in os.listdir(at) if it.endswith(".edit")) if os.path.isdir(at) else []
            found += [Mutant(crate, folder, it.removesuffix(".edit")) for it in names]
    return sorted(found, key=lambda it: (it.crate, it.name))
