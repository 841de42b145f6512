"""The public items of the crates, read from their sources in the layout of `rt fmt`: documentation, signature and
clauses. `scripts/api` writes them as pages, and `tests/documents` looks up the items that documents name.
"""
import os
import re

CLAUSE = re.compile(r"(?:requires|ensures)\*?(?!\w)")
WORD = re.compile(r"\w+")
# The word that says what an item is, after those that qualify it.
HEAD = re.compile(r'(?:(?:(?:const|unsafe|async|extern "\w+") )*(?=(?:fn|trait|impl)\b))?(\w+)')


def crates(top):
    """Each crate with those that it uses, in the order of crates.txt: lowest first."""
    found = {}
    with open(os.path.join(top, "crates.txt"), encoding="utf-8") as file:
        for line in file:
            name, apart, used = line.partition("#")[0].partition(":")
            if apart:
                found[name.split()[0]] = used.split()
    return found


def libraries(top):
    """The crates whose items others use. The other crates are programs and tests."""
    return [crate for crate in crates(top) if crate != "elf_tests"
            and os.path.isfile(os.path.join(top, "crates", crate, "src", "lib.rt"))]


def below(names, uses):
    """These crates of the repository and those that they use, lowest first."""
    found = []
    for name in names:
        found += [low for low in below(uses.get(name, []), uses) + [name] if low not in found and low in uses]
    return found


class Item:
    """A function, type, trait, constant, or an `impl` of a trait with its ghost members."""

    def __init__(self, kind, name, text, doc, derives, public, clauses=(), error=""):
        self.kind = kind
        self.name = name
        self.text = text
        self.doc = doc
        self.derives = derives
        self.public = public
        self.clauses = list(clauses)
        self.error = error
        self.members = []
        self.cited = {}


class Module:
    """What a file declares: its documentation, its items, its modules and what it re-exports."""

    def __init__(self):
        self.doc = []
        self.items = []
        self.modules = {}
        self.uses = []
        self.cited = {}


def past(text, at):
    """The place after what begins at `at`: a comment, a string, a character, or one other character."""
    if text.startswith("//", at):
        end = text.find("\n", at)
        return len(text) if end < 0 else end
    if text[at] == '"':
        at += 1
        while text[at] != '"':
            at += 2 if text[at] == "\\" else 1
        return at + 1
    if text[at] == "'":
        character = re.compile(r"'(?:\\[^\n]+?|[^\\'\n])'").match(text, at)
        if character:
            return character.end()
    return at + 1


def block_end(text, at):
    """The place after the bracket that closes the one at `at`."""
    depth = 0
    while True:
        if text[at] in "([{":
            depth += 1
        elif text[at] in ")]}":
            depth -= 1
        at = past(text, at)
        if depth == 0:
            return at


def until(text, at, ends, clauses=False):
    """The first place from `at` on, outside of brackets, where one of these characters, or a clause, begins."""
    while at < len(text):
        if text[at] in ends:
            return at
        if clauses and text[at - 1].isspace() and CLAUSE.match(text, at):
            return at
        at = block_end(text, at) if text[at] in "([{" else past(text, at)
    return at


def blank(text, at):
    while at < len(text) and text[at].isspace():
        at += 1
    return at


def dedent(text, at, end):
    """The text without the indentation of its first line."""
    indent = at - (text.rfind("\n", 0, at) + 1)
    lines = text[at:end].rstrip().split("\n")
    return "\n".join([lines[0]] + [line[indent:] if line[:indent].isspace() else line for line in lines[1:]])


def function(text, at, start):
    """The end of the function at `start`, where its contract ends, and the names of its clauses."""
    clauses = []
    here = until(text, at, "{;", clauses=True)
    while True:
        clause = CLAUSE.match(text, here)
        if not clause:
            break
        brace = text.index("{", clause.end())
        name = text[clause.end():brace].strip()
        if name:
            clauses.append(name)
        contract = block_end(text, brace)
        here = blank(text, contract)
    contract = here
    end = block_end(text, here) if text[here] == "{" else here + 1
    return end, contract, clauses


def parse(text, inner=False):
    """Reads the items of a file, or of the block of an `impl` or a trait."""
    module = Module()
    doc, derives, error = [], [], ""
    at = blank(text, 0)
    while at < len(text):
        if text.startswith("//", at):
            end = past(text, at)
            line = text[at:end]
            if line.startswith("//!"):
                module.doc.append(line[3:].removeprefix(" "))
            elif line.startswith("///"):
                doc.append(line[3:].removeprefix(" "))
            at = blank(text, end)
            continue
        if text[at] == "#":
            end = block_end(text, text.index("[", at))
            derives += re.findall(r"[\w:]+", "".join(re.findall(r"derive(?:_where)?\(([^)]*)\)", text[at:end])))
            if text.startswith("#[error(", at):
                error = dedent(text, at, end) + "\n"
            at = blank(text, end)
            continue
        start = at
        public = inner
        visibility = re.compile(r"pub(\([^)]*\))? ").match(text, at)
        if visibility:
            public = not visibility.group(1)
            at = visibility.end()
        else:
            public = inner == "trait"
        head = HEAD.match(text, at)
        word = head.group(1)
        name = WORD.search(text, head.end())
        name = name.group(0) if name else ""
        item = None
        if word == "fn":
            end, contract, clauses = function(text, head.end(), start)
            item = Item(word, name, dedent(text, start, contract), doc, derives, public, clauses)
        elif word in ("struct", "enum"):
            end = until(text, head.end(), "{;")
            end = block_end(text, end) if text[end] == "{" else end + 1
            item = Item(word, name, dedent(text, start, end), doc, derives, public, error=error)
        elif word in ("trait", "impl"):
            brace = until(text, head.end(), "{")
            end = block_end(text, brace)
            item = Item(word, name, dedent(text, start, brace), doc, derives, public)
            block = parse(text[brace + 1:end - 1], word)
            item.members, item.cited = block.items, block.cited
        elif word == "extern":
            end = block_end(text, text.index("{", head.end()))
        elif word == "mod":
            end = until(text, head.end(), ";") + 1
            module.modules[name] = public
        elif word == "use":
            end = until(text, head.end(), ";") + 1
            if public:
                module.uses += names_of(text[head.end():end - 1])
        elif word == "ghost":
            end = until(text, head.end(), ";") + 1
            if name == "use":
                module.cited.update(definitions_of(text[head.end():end - 1]))
            else:
                item = Item(word, name, dedent(text, start, end), doc, derives, True)
        else:
            end = until(text, head.end(), ";") + 1
            item = Item(word, name, dedent(text, start, end), doc, derives, public)
        if item:
            module.items.append(item)
        doc, derives, error = [], [], ""
        at = blank(text, end)
    return module


def definitions_of(text):
    """The names of a `ghost use` of definitions of this repository, each with its crate and file."""
    use = re.fullmatch(r"\s*use Rattle\.(\w+)\.specs\.([\w.]+)\.\{(.*)\}\s*", text, re.S)
    if not use or use.group(1) == "std" or use.group(2).startswith("declared"):
        return {}
    place = (use.group(1), use.group(2).replace(".", "/"))
    return {part.split(" as ")[-1].strip(): place for part in use.group(3).split(",") if part.strip()}


def names_of(text):
    """The paths of a `use`, each with the name that it gets."""
    text = " ".join(text.split())
    group = re.fullmatch(r"(.*?)::\{(.*)\}", text)
    paths = [f"{group.group(1)}::{part.strip()}" for part in group.group(2).split(",") if part.strip()] if group \
        else [text]
    pairs = []
    for path in paths:
        path, _, name = path.partition(" as ")
        if path.endswith("::self"):
            path = path[:-6]
        pairs.append((path, name or path.rsplit("::", 1)[-1]))
    return pairs


def read_crate(top, crate):
    """The modules of a crate by their paths: `elf::headers`, and so on."""
    modules = {}

    def read(path, file, folder):
        with open(file, encoding="utf-8") as opened:
            module = parse(opened.read())
        module.file = os.path.relpath(file, top)
        modules[path] = module
        for name in module.modules:
            below = os.path.join(folder, name)
            read(f"{path}::{name}", below + ".rt", below)

    source = os.path.join(top, "crates", crate, "src")
    read(crate, os.path.join(source, "lib.rt"), source)
    return modules


def public_modules(crate, modules):
    """The public modules of a crate: for each its path, its module, and the items that are reached there."""
    found = []

    def visit(path):
        module = modules[path]
        items = [(item, module) for item in module.items]
        for used, name in module.uses:
            items += used_items(crate, modules, path, used, name)
        found.append((path, module, items))
        for name, public in module.modules.items():
            if public:
                visit(f"{path}::{name}")

    visit(crate)
    return found


def used_items(crate, modules, path, used, name):
    """The items of this crate that a re-export names, with what `impl` blocks say of them."""
    home, _, last = used.rpartition("::")
    candidates = [f"{path}::{home}", f"{crate}::{home.removeprefix('crate::')}"]
    if home.startswith("super::"):
        candidates.append(f"{path.rsplit('::', 1)[0]}::{home[7:]}")
    for home in candidates:
        if home in modules:
            module = modules[home]
            here = [item for item in module.items if item.name == last and item.kind != "impl"]
            if here:
                return [(item, module) for item in here]
            for again, name_there in module.uses:
                if name_there == last:
                    return used_items(crate, modules, home, again, last)
    return []


def type_of(header):
    """The trait, if there is one, and the type that an `impl` is for."""
    text = " ".join(header.split()).removeprefix("impl")
    if text.startswith("<"):
        depth = 0
        for at, character in enumerate(text):
            depth += {"<": 1, ">": -1}.get(character, 0)
            if depth == 0:
                text = text[at + 1:]
                break
    text = text.split(" where ")[0].strip()
    trait, apart, type_ = text.rpartition(" for ")
    return (trait.strip(), type_.strip()) if apart else ("", text)


def bare(type_):
    """The name of a type without its path and its parameters."""
    return type_.split("<")[0].rsplit("::", 1)[-1].strip("&' ")


def entries(crate, modules):
    """What a page of the crate lists: for each public module its path, its documentation and its entries. An entry has
    a title, the text in the language, documentation, derived traits, and the names of its clauses."""
    impls = {}
    for module in modules.values():
        for item in module.items:
            if item.kind == "impl":
                item.cited = module.cited | item.cited
                impls.setdefault(bare(type_of(item.text)[1]), []).append(item)
    pages = []
    seen = set()
    for path, module, items in public_modules(crate, modules):
        page = []
        for item, home in items:
            if not item.public or item.kind in ("impl", "ghost") or id(item) in seen:
                continue
            seen.add(id(item))
            page += entries_of(item, home.cited, impls.get(item.name, []))
        pages.append((path, module.doc, page))
    return pages


def entries_of(item, cited, impls):
    """The entries of an item: itself, the methods of a trait, and what the `impl` blocks say of a type."""
    if item.kind in ("const", "static"):
        return [Entry(item.name, item, {}, constant=True)]
    if item.kind == "trait":
        cited = cited | item.cited
        methods = [member for member in item.members if member.kind == "fn"]
        return [Entry(item.name, item, cited, with_members(item, methods=False))] + [
            Entry(f"{item.name}::{method.name}", method, cited) for method in methods]
    found = [Entry(item.name, item, cited, without_private(item.text) if item.kind == "struct" else item.text)]
    for impl in impls:
        trait, _ = type_of(impl.text)
        if not trait:
            found += [Entry(f"{item.name}::{member.name}", member, impl.cited) for member in impl.members
                      if member.kind == "fn" and member.text.startswith("pub ") and member.public]
        elif bare(trait) != "Drop":
            found.append(Entry("", impl, impl.cited, with_members(impl, methods=True)))
    return found


def with_members(item, methods):
    """A trait or an `impl` with its ghost members and types, and the methods that have clauses of their own."""
    members = [member.text for member in item.members if member.kind in ("ghost", "type")
               or methods and member.kind == "fn" and CLAUSE.search(member.text)]
    lines = [line for text in members for line in text.split("\n")]
    if not lines:
        return item.text.rstrip() + (" {..}" if item.kind == "impl" else "")
    body = "\n    ".join(lines)
    return f"{item.text.rstrip()} {{\n    {body}\n}}"


def without_private(text):
    """The declaration of a struct with `..` in the place of its private fields."""
    if "{" not in text:
        return re.sub(r"\((?!pub ).*\)", "(..)", text) if "(" in text else text
    head, _, body = text.partition("{")
    kept, private, comments = [], False, []
    for line in body.rsplit("}", 1)[0].split("\n"):
        if line.strip().startswith("//"):
            comments.append(line)
        elif line.strip().startswith("pub "):
            kept += comments + [line]
            comments = []
        else:
            private = private or bool(line.strip())
            comments = []
    if not kept:
        return head + "{ .. }"
    return head + "{\n" + "\n".join(kept) + ("\n    .." if private else "") + "\n}"


class Entry:
    """What a page says of an item: a title, a text in the language, documentation, derived traits, the names of the
    clauses, and the definitions that the text cites, each with its crate and file."""

    def __init__(self, title, item, cited, text=None, constant=False):
        self.title = title
        self.text = text or item.text
        self.doc = item.doc
        self.derives = item.derives
        self.error = item.error
        self.clauses = item.clauses
        self.constant = constant
        words = set(WORD.findall(self.text))
        self.cited = {name: place for name, place in cited.items() if name in words}


def all_paths(top):
    """Each public path of each library, with the names of the clauses of the item: `elf::ElfBytes::minimal_parse`."""
    read = {crate: read_crate(top, crate) for crate in libraries(top)}
    paths = {}
    for crate, modules in read.items():
        for path, _, page in entries(crate, modules):
            paths.setdefault(path, [])
            for entry in page:
                if entry.title:
                    paths[f"{path}::{entry.title}"] = entry.clauses
    # Re-exports of other crates, from the lowest crate up.
    for crate, modules in read.items():
        for path, module, _ in public_modules(crate, modules):
            for used, name in module.uses:
                for known, clauses in list(paths.items()):
                    if known == used or known.startswith(used + "::"):
                        paths[f"{path}::{name}{known[len(used):]}"] = clauses
    return paths
