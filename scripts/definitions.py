"""Reads the definitions of the repository: who names whom, and which contracts cite them. Used by the other scripts."""
import glob
import os
import re
from collections import OrderedDict

HEAD = re.compile(r"^\s*(?:abbrev pub|unfoldable pub|pub record|pub data|pub inductive) (\S+)")
USE = re.compile(r"^\s*(?:pub use|use|ghost use) Rattle\.(\w+)\.specs\.([\w.]+?)\.\{([^}]*)\}", re.MULTILINE)
USE_AS = re.compile(r"^\s*(?:use|ghost use) Rattle\.(\w+)\.specs\.([\w.]+) as (\w+)", re.MULTILINE)
OTHER = re.compile(r"^(?:(?:pub )?(?:use|mod|module|infixl?|infixr) |\S+ : )")
WORD = re.compile(r"[^\s(){}\[\];:,.→λ×≡⊎¬∷]+")


def go_to_top(script):
    os.chdir(os.path.join(os.path.dirname(os.path.abspath(script)), ".."))


def is_crate(name):
    return os.path.isdir(os.path.join("crates", name))


def declared_type(crate, path):
    """The type `declared.module.Type` of the code: the file that declares it, and its name."""
    parts = [part for part in path.split(".")[1:] if part != "TheVariants"]
    folder = os.path.join("crates", crate, "src")
    module = os.path.join(folder, *parts[:-1]) + ".rt"
    for name in [module] + sorted(os.path.join(folder, other) for other in os.listdir(folder) if other.endswith(".rt")):
        if os.path.isfile(name):
            with open(name, encoding="utf-8") as handle:
                if re.search(r"(?:pub|pub\(\w+\)) (?:enum|struct) " + parts[-1] + r"\b", handle.read()):
                    return ("type", name, parts[-1])
    return ("type", module, parts[-1])


def imports_of(text):
    """What each imported word of a file of code or definitions names."""
    found = {}
    for crate, path, names in USE.findall(text):
        if not is_crate(crate):
            continue
        for listed in names.split(","):
            words = listed.strip().split(" as ")
            if path.endswith(".TheConstants"):
                found[words[-1]] = ("type", os.path.join("crates", crate, "src", *path.split(".")[1:-1]) + ".rt", words[0])
            elif path.startswith("declared."):
                found[words[-1]] = declared_type(crate, path)
            else:
                spec = os.path.join("crates", crate, "specs", *path.split(".")) + ".antt"
                found[words[-1]] = ("definition", spec, words[0])
    for crate, path, alias in USE_AS.findall(text):
        if not is_crate(crate):
            continue
        if path.startswith("declared."):
            found[alias] = declared_type(crate, path)
            continue
        spec = os.path.join("crates", crate, "specs", *path.split(".")) + ".antt"
        for word in words_of(spec):
            found.setdefault(word, ("definition", spec, word))
    return found


def words_of(spec):
    """The definitions of a file, and their constructors."""
    with open(spec, encoding="utf-8") as handle:
        lines = handle.read().split("\n")
    heads = [HEAD.match(line) for line in lines]
    return [head.group(1) for head in heads if head] + [made.group(1) for made in map(re.compile(r"^  (\w+) :").match, lines) if made]


class File:
    """One file of definitions: what it imports, and the text of each definition."""

    def __init__(self, name):
        with open(name, encoding="utf-8") as handle:
            text = handle.read()
        self.imports = imports_of(text)
        self.bodies = OrderedDict()
        current = None
        for line in text.split("\n"):
            head = HEAD.match(line)
            if head:
                current = head.group(1)
                self.bodies[current] = []
            elif OTHER.match(line):
                current = None
            if current and not line.lstrip().startswith("--"):
                self.bodies[current].append(line.split(" -- ")[0])
        self.constructors = {}
        for name, lines in self.bodies.items():
            if lines[0].lstrip().startswith("pub data"):
                for line in lines[1:]:
                    made = re.match(r"\s+(\w+) :", line)
                    if made:
                        self.constructors[made.group(1)] = name

    def words(self, name):
        return WORD.findall("\n".join(self.bodies[name]))


FILES = {}


def file_of(name):
    if name not in FILES:
        FILES[name] = File(name)
    return FILES[name]


def resolve(file_name, word):
    """What a word of a file of definitions names: a definition or a type of the repository, or nothing."""
    here = file_of(file_name)
    operator = f"◌{word}◌"
    if operator in here.bodies or operator in here.imports:
        word = operator
    if word in here.bodies:
        return ("definition", file_name, word)
    if word in here.constructors:
        return ("definition", file_name, here.constructors[word])
    return followed(here.imports.get(word))


def followed(item):
    """What an import names in the end."""
    if item and item[0] == "definition":
        return resolve(item[1], item[2]) if os.path.exists(item[1]) else None
    return item


def reached(roots):
    """The roots and all that they name, in the order in which they are met."""
    waiting = list(roots)
    seen = OrderedDict()
    while waiting:
        item = waiting.pop(0)
        if item in seen:
            continue
        seen[item] = True
        if item[0] == "definition":
            for word in file_of(item[1]).words(item[2]):
                found = resolve(item[1], word)
                if found and found not in seen:
                    waiting.append(found)
    return seen


def contract(text, call):
    """The clauses of the function whose line begins so, up to its body."""
    start = text.index(call)
    return text[text.index("ensures", start):text.index("\n{\n", start)]


def claim():
    """The definitions and types that the contract of the top call reaches."""
    with open("crates/cluster_top/src/top.rt", encoding="utf-8") as handle:
        text = handle.read()
    names = imports_of(text)
    words = WORD.findall(contract(text, "pub fn crgc_top"))
    return reached([followed(names[word]) for word in words if word in names])


def is_law_module(crate, module):
    """Whether the functions of a module are laws: they do nothing, and their contracts are about definitions alone."""
    return "laws" in module or module == "compaction" or (crate == "mail_laws" and module == "lib")


class Contracts:
    """The definitions that a crate's contracts name: of public calls, of laws, and of private functions."""

    FN = re.compile(r"^(\s*)(pub(?:\(\w+\))? )?(?:final )?fn (\w+)")
    IMPL = re.compile(r"^impl(?:<[^>]*>)? (?:(\w+)(?:<[^{]*>)? for )?(\w+)")

    def __init__(self, crate):
        self.part, self.law, self.inside = [], [], []
        self.calls = OrderedDict()
        folder = os.path.join("crates", crate, "src")
        root = "\n".join(self.read(os.path.join(folder, name)) for name in ("lib.rt", "main.rt") if os.path.exists(os.path.join(folder, name)))
        self.exported = set()
        for names in re.findall(r"^pub use (?:\w+::)+(?:\{([^}]*)\}|(\w+))", root, re.MULTILINE):
            self.exported |= {name.strip() for name in (names[0] or names[1]).split(",")}
        modules = set(re.findall(r"^pub mod (\w+)", root, re.MULTILINE))
        for name in sorted(glob.glob(os.path.join(folder, "**", "*.rt"), recursive=True)):
            module = os.path.relpath(name, folder)[:-3].split(os.sep)[0]
            if crate.endswith("_tests") or os.path.basename(name).endswith("tests.rt"):
                continue
            self.read_file(name, module in ("lib", "main"), module in modules, is_law_module(crate, module))

    @staticmethod
    def read(name):
        with open(name, encoding="utf-8") as handle:
            return handle.read()

    def read_file(self, path, is_root, is_public, is_laws):
        text = self.read(path)
        names = imports_of(text)
        lines = text.split("\n")
        owner, in_trait = None, False
        number = 0
        while number < len(lines):
            line = lines[number]
            impl = self.IMPL.match(line)
            trait = re.match(r"^pub trait (\w+)", line)
            if impl:
                owner, in_trait = impl.group(2), False
            elif trait:
                owner, in_trait = trait.group(1), True
            elif line == "}":
                owner, in_trait = None, False
            found = self.FN.match(line)
            ghost = re.match(r"^    ghost (\w+) ?[=:]", line)
            if found:
                indent, public, name = found.groups()
                clauses = [line]
                while number + 1 < len(lines) and not re.match(rf"^{indent}(?:\{{|\{{\}})$", lines[number]) and not (
                        clauses[-1].rstrip().endswith((" {", ";"))):
                    number += 1
                    clauses.append(lines[number])
                known = owner in self.exported or is_root or is_public if owner else (name in self.exported or is_root or is_public)
                shown = (public == "pub " or (owner and not public and impl_is_trait(lines, number))) and known
                self.note(names, clauses, ("law" if is_laws else "part") if shown else "inside")
                if shown and (public == "pub " or in_trait):
                    self.calls.setdefault((path, is_laws), OrderedDict()).setdefault(owner, []).append(name)
            elif ghost:
                clauses = [line]
                while not clauses[-1].rstrip().endswith(";") and number + 1 < len(lines):
                    number += 1
                    clauses.append(lines[number])
                known = owner in self.exported or is_root or is_public
                self.note(names, clauses, "part" if known and ghost.group(1) != "invariant" else "inside")
            number += 1

    def note(self, names, clauses, kind):
        for word in WORD.findall("\n".join(clauses)):
            item = followed(names.get(word))
            if item:
                getattr(self, kind).append(item)


def impl_is_trait(lines, number):
    """Whether the line stands in an impl of a trait or in a trait, whose functions are as public as the type."""
    while number >= 0:
        if lines[number].startswith("impl") or lines[number].startswith("pub trait"):
            return " for " in lines[number] or lines[number].startswith("pub trait")
        if lines[number] == "}":
            return False
        number -= 1
    return False


def all_crates():
    with open("crates.txt", encoding="utf-8") as handle:
        rows = [row.split("#")[0].strip() for row in handle]
    return [row.split(":")[0].split()[0] for row in rows if row]


def kinds():
    """Each definition with its kind: claim, part, law, inside or uncited, the first that fits."""
    part, law, inside = [], [], []
    for crate in all_crates():
        contracts = Contracts(crate)
        part += contracts.part
        law += contracts.law
        inside += contracts.inside
    found = {}
    for kind, items in (("claim", claim()), ("part", reached(part)), ("law", reached(law)), ("inside", reached(inside))):
        for item in items:
            found.setdefault(item, kind)
    for spec in glob.glob("crates/*/specs/*.antt"):
        for word in file_of(spec).bodies:
            found.setdefault(("definition", spec, word), "uncited")
    return found
