"""The reading of .rt: imports, types, functions with their clauses, and the paths that the code names."""
import re

from .antt import Module


# A clause's beginning: its kind, perhaps a star, a name, and of a ghost value its colon.
CLAUSE = re.compile(r"(requires|ensures)\*?(?:\s+[^\s{}]+)?\s*\{|(ghost)\s+\w+\s*:\s*\{")
# The head of an impl block, up to its bracket.
IMPL = re.compile(r"^[ \t]*(?:unsafe )?impl\b([^{;]*)(?=\{)", re.M)


def implemented(head):
    """The name of an impl's type, and how its methods are told: `Type`, or `<Type as Trait>` of a trait's."""
    while "<" in head:
        head = re.sub(r"<[^<>]*>", " ", head.replace("->", "  "))
    steps = re.findall(r"[\w:]+", re.sub(r"\bwhere\b.*", "", head, flags=re.S))
    names = [step.split("::")[-1] for step in steps]
    if "for" in names[1:-1]:
        return names[-1], "<%s as %s>" % (names[-1], names[names.index("for") - 1])
    return (names[-1], names[-1]) if names else (None, None)


def imported(text):
    """What a `use` names: (local name, steps) of each; `use a::{self, b as c, d::{e}};` names a, c and e."""
    text = text.strip()
    if "{" in text:
        head, _, inner = text.partition("{")
        base, part, deep = tuple(s for s in head.strip().split("::") if s), "", 0
        for sign in inner[: inner.rindex("}")] + ",":
            deep += (sign == "{") - (sign == "}")
            if sign == "," and not deep:
                for local, steps in imported(part) if part.strip() else ():
                    yield (base[-1], base) if steps == ("self",) else (local, base + steps)
                part = ""
            else:
                part += sign
        return
    path, _, local = text.partition(" as ")
    steps = tuple(path.strip().split("::"))
    if steps[-1] != "*":
        yield local.strip() or steps[-1], steps[:-1] if steps[-1] == "self" and len(steps) > 1 else steps


class Function:
    """A function of an .rt file: its clauses' text, the types of its signature, and its lines from `fn` to its body."""

    def __init__(self, crate, path, name, public, line, head, clauses, lines):
        self.crate, self.path, self.name, self.public, self.line = crate, path, name, public, line
        self.head, self.clauses, self.lines = head, clauses, lines


class Source:
    """A file of a crate's src/: its imports, types, functions and the paths that its code names."""

    def __init__(self, crate, path, file, text):
        self.crate, self.path, self.file = crate, path, file
        self.bare = bare = re.sub(r"//[^\n]*", lambda m: " " * len(m.group()), text)
        self.ghost = Module(crate, "src", path, file, "".join(
            "use" + m.group(1) + "\n" for m in re.finditer(r"^[ \t]*ghost use(\s[^;]*);", bare, re.M)))
        self.code = re.sub(r"^[ \t]*ghost use\s[^;]*;", lambda m: re.sub(r"\S", " ", m.group()), bare, flags=re.M)
        self.imports = {}
        for use in re.findall(r"^\s*(?:pub(?:\([^)]*\))? )?use ([^;]+);", self.code, re.M):
            self.imports.update(imported(use))
        self.mods = {name: bool(public) for public, name in re.findall(r"^\s*(pub )?mod (\w+);", self.code, re.M)}
        self.lines = text.split("\n")
        self.types, self.functions = {}, {}
        for m in re.finditer(r"^\s*(?:pub(?:\([^)]*\))? )?(struct|enum|type) (\w+)\b", self.code, re.M):
            end = self.end_of(m.end())
            self.types[m.group(2)] = (m.group(1), self.code[m.end() : end], self.span(m.start(1), end))
        self.impls = [(m.start(), self.end_of(m.end())) + implemented(m.group(1)) for m in IMPL.finditer(self.code)]
        form = r'^[ \t]*(?:(pub )|pub\([^)]*\) )?(?:const )?(?:unsafe )?(?:extern "C" )?fn (\w+)'
        for m in re.finditer(form, self.code, re.M):
            self.function(m)

    def end_of(self, at):
        """Where an item ends: its closing bracket at depth 0, or its semicolon."""
        deep = 0
        while at < len(self.code):
            sign = self.code[at]
            deep += (sign in "({[") - (sign in ")}]")
            if deep == 0 and (sign == ";" or sign == "}"):
                return at + 1
            at += 1
        return at

    def span(self, start, end):
        """The numbers of the lines of a stretch of code, and of the comment and attributes right above it."""
        first = self.code.count("\n", 0, start) + 1
        last = self.code.count("\n", 0, end - 1) + 1
        while first > 1 and self.lines[first - 2].lstrip().startswith(("//", "#[")):
            first -= 1
        return {n for n in range(first, last + 1) if self.lines[n - 1].strip()}

    def function(self, match):
        deep, at, clauses = 0, match.end(), []
        while at < len(self.code):
            sign = self.code[at]
            clause = CLAUSE.match(self.code, at) if deep == 0 else None
            if clause:
                end, inner = clause.end(), 1
                while inner and end < len(self.code):
                    inner += (self.code[end] == "{") - (self.code[end] == "}")
                    end += 1
                clauses.append((clause.group(1) or clause.group(2), self.code[clause.end() : end - 1]))
                at = end
                continue
            if deep == 0 and sign in "{;":
                break
            deep += (sign in "([") - (sign in ")]")
            at += 1
        first = CLAUSE.search(self.code, match.end(), at)
        head = self.code[match.end() : first.start() if first else at]
        line = self.code.count("\n", 0, match.start(2)) + 1
        while self.code[at - 1].isspace():
            at -= 1
        lines = self.span(match.start(2), at)
        # a method is told by its type's name too
        name = match.group(2)
        for start, end, owner, told in self.impls:
            if owner and start <= match.start() < end:
                name, head = told + "::" + name, re.sub(r"\bSelf\b", owner, head)
        self.functions[name] = Function(self.crate, self.path, name, bool(match.group(1)), line, head, clauses, lines)

    def full(self, path):
        """A path of the code with its first step followed through the imports: (crate, steps..)."""
        steps = list(path)
        if steps[0] in self.imports:
            steps = list(self.imports[steps[0]]) + steps[1:]
        if steps[0] == "crate":
            return (self.crate,) + tuple(steps[1:])
        if steps[0] in ("super", "self"):
            base = self.path[:-1] if steps[0] == "super" else self.path
            return (self.crate,) + base + tuple(steps[1:])
        if steps[0] in self.mods or steps[0] in self.types or steps[0] in self.functions:
            return (self.crate,) + self.path + tuple(steps)
        return tuple(steps)

    def paths(self):
        """The paths with `::` that the code names, followed through the imports; the imports too."""
        found = {self.full(tuple(p.split("::"))) for p in re.findall(r"(?<![:\w])\w+(?:::\w+)+", self.code)}
        return found | {self.full((name,)) for name in self.imports}

    def named_types(self, text):
        """The types, as (crate, steps..), that a piece of code names."""
        found = set()
        for path in re.findall(r"(?<![:\w])\w+(?:::\w+)*", text):
            full = self.full(tuple(path.split("::")))
            if full[-1][:1].isupper():
                found.add(full)
        return found
