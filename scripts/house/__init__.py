"""The repository as its scripts read it: crates.txt, the floors, and what .antt and .rt files declare and name.

Not a command: scripts/deps, check-promises, believe and map import it, and scripts/tests/house.py tests it. It needs
Python's standard library alone.
"""
import os
import re

from .antt import ATOM, Decl, Module, bound_by, crates_in, free, is_name, pattern, plain, position, tree, words
from .common import Fault, files, read, root_folder, run
from .rt import Source

# The kit's libraries that a crate lists where it names them; std is always there and never listed.
KIT = ("anyhow", "bytes", "check", "io", "itertools", "thiserror")

# What a path of .antt begins with where it names a library: Rattle.CRATE.specs.FILE.NAME.
LIBRARY = "Rattle"

# The floors of document 01, lowest first: its heading, and the crates of each, by name or by what a name begins with.
FLOORS = (
    ("Refusals, names and numbers", ("refusal", "name", "bits", "copies", "input", "decimal", "order")),
    ("The table file", ("file", "file_")),
    ("Terms", ("term", "term_")),
    ("Texts", ("text", "text_")),
    ("Costs and choice", ("choice_", "table_", "price", "price_", "build", "best_", "variant_", "variants_", "answer_",
                          "extract", "extract_")),
    ("The program", ("program", "program_", "cases", "needlevale")),
    ("The theorems", ("theorems",)),
    ("Lent term structs", ("lent", "lent_")),
    ("The library for C", ("c_told", "needlevale_c")),
    ("Runs", ("run_",)),
)

# The crates whose `pub fn`s are document 01's public calls.
PUBLIC = ("file", "term", "term_many", "text", "extract", "program", "needlevale_c", "lent_terms", "lent_texts", "lent_extract")

# Constructors that every .antt file has without a `use` line.
PRELUDE = ("_", "zero", "suc", "[]", "true", "false", "tt", "yes", "no", "refl")

# The files, and the records in them, that are promise pages; the first is the one at the top of all, if there is one.
PAGES = ("Main", "Promises", "Cases")


def floor_of(crate):
    """The number of a crate's floor in FLOORS."""
    for number, (_, names) in enumerate(FLOORS):
        if crate in names:
            return number
    for number, (_, names) in enumerate(FLOORS):
        if any(name.endswith("_") and crate.startswith(name) for name in names):
            return number
    raise Fault("the crate %s belongs to no floor; give it one in FLOORS of scripts/house/__init__.py" % crate)


def read_list(root):
    """The comment lines at the top of crates.txt, and each crate's list of others, in its order."""
    head, listed, _ = read_rows(root)
    return head, listed


def read_rows(root):
    """What read_list gives, and of each crate what stands before its colon: its name, and perhaps `staticlib`."""
    head, listed, told = [], {}, {}
    for number, line in enumerate(read(os.path.join(root, "crates.txt")).splitlines(), 1):
        body = line.split("#", 1)[0].strip()
        if not body:
            if not listed:
                head.append(line)
            continue
        before, colon, rest = body.partition(":")
        row = re.fullmatch(r"([A-Za-z_]\w*)(?: staticlib)?", " ".join(before.split()))
        if not colon or not row:
            raise Fault("crates.txt, line %d: 'NAME: DEP DEP ..' or 'NAME staticlib: DEP ..' is expected, not '%s'" % (
                number, body))
        name = row.group(1)
        if name in listed:
            raise Fault("crates.txt, line %d: %s is listed twice" % (number, name))
        listed[name], told[name] = rest.split(), row.group()
    return head, listed, told


def below(listed, crate):
    """The crates of the list that a crate stands on, however far down."""
    seen, todo = set(), [d for d in listed[crate] if d in listed]
    while todo:
        name = todo.pop()
        if name not in seen:
            seen.add(name)
            todo += [d for d in listed[name] if d in listed]
    return seen


def above(listed, names):
    """The crates that stand on some of the given ones, in the list's order."""
    for name in names:
        if name not in listed:
            raise Fault("crates.txt lists no crate '%s'" % name)
    return [crate for crate in listed if below(listed, crate) & set(names)]


class House:
    """All crates of crates.txt with their files."""

    def __init__(self, root, proofs=True):
        self.root = root
        self.head, self.listed = read_list(root)
        self.modules, self.sources = {}, {}
        for crate in self.listed:
            folder = os.path.join(root, "crates", crate)
            if not os.path.isdir(os.path.join(folder, "src")):
                raise Fault("crates.txt lists %s, and there is no crates/%s/src" % (crate, crate))
            for part in ("specs", "proofs") if proofs else ("specs",):
                for file in files(os.path.join(folder, part), ".antt"):
                    path = tuple(file[:-5].split(os.sep))
                    path = () if path == ("Lib",) else path
                    where = "crates/%s/%s/%s" % (crate, part, file)
                    self.modules[crate, part, path] = Module(crate, part, path, where, read(os.path.join(root, where)))
            for file in files(os.path.join(folder, "src"), ".rt"):
                path = tuple(file[:-3].split(os.sep))
                path = () if path in (("lib",), ("main",)) else path
                where = "crates/%s/src/%s" % (crate, file)
                self.sources[crate, path] = Source(crate, path, where, read(os.path.join(root, where)))
        self.types = {}
        for (crate, path), source in self.sources.items():
            for name, (kind, text, lines) in source.types.items():
                self.types[(crate,) + path + (name,)] = self.code_type(source, name, kind, text, lines)

    @staticmethod
    def code_type(source, name, kind, text, lines):
        decl = Decl(source.ghost, "type", name, True, lines)
        if kind == "enum":
            inner = re.sub(r"#\[[^\]]*\]", "", text[text.find("{") + 1 :])
            text = " ".join(a or b for a, b in re.findall(r"\(([^()]*)\)|\{([^{}]*)\}", inner))
        decl.uses = source.named_types(text) - {(source.crate,) + source.path + (name,)}
        return decl

    def link(self, module):
        """Reads the trees of a module's declarations, once, for the names that they refer to."""
        pending, module.pending = module.pending, []

        def is_head(name):
            """Whether a name in a pattern is a constructor; what only the kit knows counts as one."""
            target = self.resolve(module, name)
            if not isinstance(target, Decl):
                return target is not None or name in PRELUDE or name in module.parts_of
            origin = module.imports.get(plain(name), (name,))[-1]
            return target.kind == "type" or origin.split(".")[-1] in target.heads or any(
                whole in target.heads for whole in module.parts_of.get(name, ()))

        for decl, kind, nodes in pending:
            bound = bound_by(tree(decl.section))
            if kind == "term":
                free(nodes, is_head, bound, decl.uses)
            elif kind == "fields":
                head, params, members = nodes
                free(head, is_head, bound, decl.uses)
                bound |= bound_by(params)
                for name, type_ in members:
                    free(type_, is_head, bound, decl.uses)
                    bound.add(name)
            else:
                equals = position(nodes, "=")
                left, right = (nodes, []) if equals is None else (nodes[:equals], nodes[equals + 1 :])
                left = [node for node in left if not (is_name(node) and plain(node.text) in decl.names)]
                pattern(left, is_head, bound, decl.uses)
                free(right, is_head, bound, decl.uses)

    # -- names

    def resolve(self, module, name):
        """What a name of a module means: a declaration, 'kit' for something of the kit's libraries, or None."""
        steps = tuple(plain(s) for s in re.findall(ATOM.pattern, name))
        if not steps:
            return None
        if steps[0] == "package":
            steps = steps[1:]
        if steps[0] in module.own:
            return module.own[steps[0]]
        if steps[0] in module.imports:
            return self.at(self.whole(module, module.imports[steps[0]]) + steps[1:])
        modules = steps[0] in module.aliases or steps[0] in module.children or steps[0] == LIBRARY
        if modules and len(steps) > 1:
            return self.at(self.whole(module, steps))
        for path, _ in module.globs:
            child = self.modules.get((module.crate, module.part, module.path + path))
            target = self.within(child, steps) if child else None
            if target is not None:
                return target
        for whole in sorted(module.parts_of.get(steps[0], ())):
            return self.resolve(module, whole)
        return None

    @staticmethod
    def whole(module, steps):
        """A path of a module from its library on: it may begin with a child of the module or a name for another."""
        if steps[0] in module.children:
            return (LIBRARY, module.crate, module.part) + module.path + steps
        alias = module.aliases.get(steps[0], steps)
        return steps if alias[0] == steps[0] else House.whole(module, alias) + steps[1:]

    def at(self, steps):
        """What a whole path means, from its library on."""
        if steps[0] != LIBRARY or len(steps) < 2 or steps[1] not in self.listed:
            return "kit"
        crate, part, rest = steps[1], steps[2] if len(steps) > 2 else None, steps[3:]
        if part not in ("specs", "proofs"):
            return None
        if part == "specs" and rest[:1] == ("declared",):
            return self.declared(crate, rest[1:])
        for cut in range(len(rest), -1, -1):
            module = self.modules.get((crate, part, rest[:cut]))
            if module:
                return self.within(module, rest[cut:])
        return None

    def declared(self, crate, steps):
        """A type of the code, by the path that the generated module has: m.Type.Type, m.Type.TheVariants.V."""
        for cut in range(len(steps), 0, -1):
            if (crate,) + steps[:cut] in self.types:
                return self.types[(crate,) + steps[:cut]]
        return None

    def within(self, module, steps):
        """What a path means inside a module: its own name, or one that it passes on."""
        if module is None or not steps:
            return None
        if steps[0] in module.own:
            return module.own[steps[0]]
        if steps[0] in module.passed:
            if steps[0] in module.imports:
                return self.at(self.whole(module, module.imports[steps[0]]) + steps[1:])
            if len(steps) > 1:
                return self.at(self.whole(module, steps))
        for path, public in module.globs:
            child = self.modules.get((module.crate, module.part, module.path + path))
            target = self.within(child, steps) if public and child else None
            if target is not None:
                return target
        return None

    def uses(self, decl):
        """The declarations that one refers to."""
        if decl.kind == "type":
            found = {self.types.get(path) for path in decl.uses}
        else:
            self.link(decl.module)
            found = {self.resolve(decl.module, name) for name in decl.uses}
        return {d for d in found if isinstance(d, Decl) and d is not decl}

    def closure(self, decls):
        seen, todo = set(), list(decls)
        while todo:
            decl = todo.pop()
            if decl not in seen:
                seen.add(decl)
                todo += self.uses(decl)
        return seen

    def contract(self, function):
        """The declarations that a function's clauses and signature name."""
        source = self.sources[function.crate, function.path]
        out = set()
        params = set(re.findall(r"(\w+)\s*:", function.head)) | {"result", "self"}
        for _, text in function.clauses:
            free(tree(words(text)[0]), lambda name: False, params, out)
        found = {self.resolve(source.ghost, name) for name in out}
        # a variant `E.V` needs no import: E is the code's own name for the type
        found |= {self.types.get(source.full((name.split(".")[0],))) for name in out if "." in name}
        found |= {self.types.get(path) for path in source.named_types(function.head)}
        return {d for d in found if isinstance(d, Decl)}

    def public_functions(self, crate):
        """The `pub fn`s of a crate that its `pub mod` lines lead to."""
        todo, found = [()], []
        while todo:
            source = self.sources.get((crate, todo.pop(0)))
            if source:
                found += [f for f in source.functions.values() if f.public]
                todo += [source.path + (name,) for name, public in source.mods.items() if public]
        return found

    def pages(self):
        """The promise pages: each record of a page's name in a crate's specs/."""
        return [d for key in self.modules if key[1] == "specs" for decl in self.modules[key].decls
                for d in (decl.parts or [decl]) if d.kind == "record" and d.name in PAGES]

    # -- order

    def place(self, module):
        """A file's place in reading order: by floor; crate, rules first; the code's types; specs/ as `mod` lines go."""
        order = list(self.listed)
        rules = not module.crate.endswith("_rules")
        files_ = [m.path for m in self.reached(module.crate, module.part)] if module.part != "src" else []
        place = files_.index(module.path) if module.path in files_ else len(files_)
        return (floor_of(module.crate), rules, order.index(module.crate), ("src", "specs", "proofs").index(module.part),
                place, module.path)

    # -- reach

    def reached(self, crate, part):
        """The modules that `pub mod` lines lead to, from Lib.antt and, in proofs/, from a code module's file."""
        seen = []

        def visit(path):
            module = self.modules.get((crate, part, path))
            if module and module not in seen:
                seen.append(module)
                for name, public in module.children.items():
                    if public:
                        visit(path + (name,))

        visit(())
        if part == "proofs":
            for name, path in self.sources:
                if name == crate and path:
                    visit(path)
        return seen

    # -- dependencies

    def named(self, crate):
        """The crates, of the repository and of the kit, that a crate's own files name."""
        known = set(self.listed).union(KIT, *self.listed.values()) - {"std"}
        out = set()
        for (c, _, _), module in self.modules.items():
            if c == crate:
                out |= module.crates()
        for (c, _), source in self.sources.items():
            if c == crate:
                out |= crates_in(source.bare)
                out |= {path[0] for path in source.paths()}
        folder = os.path.join(self.root, "crates", crate, "must-fail")
        own = {path[-1] for (c, path) in self.sources if c == crate and path}
        for file in files(folder, ".edit"):
            new = "\n".join(l[4:] for l in read(os.path.join(folder, file)).splitlines() if l.startswith("new:"))
            out |= crates_in(new) | set(re.findall(r"(?<![:\w])(\w+)::", new)) - own
        return out & known - {crate}

    def called(self, path):
        """The function of a path of the code, `m::f` or the method `m::Type::f`, and its file; or None for each."""
        for steps in (1, 2):
            other = self.sources.get((path[0], path[1:-steps]))
            name = "::".join(path[-steps:])
            if other and len(path) > steps and name in other.functions:
                return other.functions[name], other
        return None, None

    def reached_types(self, crate):
        """The crates of whose types a value is reached through a call, though no file names them.

        The toolchain plans no call of a function that takes or gives a type of a crate that is not listed.
        """
        todo, seen = [], set()
        for (c, _), source in self.sources.items():
            if c != crate:
                continue
            for path in source.paths():
                called, other = self.called(path) if path[0] != crate else (None, None)
                if called:
                    todo += other.named_types(called.head)
                if path in self.types:
                    todo.append(path)
        while todo:
            path = todo.pop()
            if path in self.types and path not in seen:
                seen.add(path)
                todo += self.types[path].uses
        return {path[0] for path in seen} - {crate}

    def direct(self, crate):
        return self.named(crate) | self.reached_types(crate)
