"""The reading of .antt: words, layout, declarations and the names that they refer to.

It knows comments, `use`, `mod`, sections, mutual blocks, records, data types and operators, and follows the scope of
binders. Where it cannot tell it takes a name for a reference, so it may name too much, never too little. It assumes
files that `rt fmt` has laid out.
"""
import re

from .common import Fault


# ---- The words of .antt

class Word:
    """A word of .antt: its text, where it stands, and whether it is the first of its line.

    kind is 'name' (perhaps with dots, `a.b`), 'field' (`.x` behind a space), 'dot' (what ends the binders of a λ),
    'text', or the bracket or sign itself.
    """
    __slots__ = ("kind", "text", "line", "column", "first")

    def __init__(self, kind, text, line, column, first):
        self.kind, self.text, self.line, self.column, self.first = kind, text, line, column, first


SIGNS = "(){}.;,@\""
PLACE = "◌"  # where an operator's argument stands in its name
ATOM = re.compile(r"(?:«[^»]*»|[^\s(){}.;,@\"«»])+")
PATH = re.compile(ATOM.pattern + r"(?:\." + ATOM.pattern + ")*")


def plain(name):
    """A name without the marks of an escape: `«x»` is `x`."""
    return name[1:-1] if name.startswith("«") and name.endswith("»") and name.count("«") == 1 else name


def words(text):
    """The words of an .antt text, and the numbers of the lines that hold nothing but a comment."""
    found, comments = [], set()
    at, line, start, first, deep = 0, 1, 0, True, 0
    while at < len(text):
        sign = text[at]
        if sign == "\n":
            at, line, start, first = at + 1, line + 1, at + 1, True
        elif deep or text.startswith("{-", at) and not text.startswith("{-}", at):
            if first:
                comments.add(line)
            deep += text.startswith("{-", at) - text.startswith("-}", at)
            at += 2 if text.startswith(("{-", "-}"), at) else 1
        elif sign.isspace():
            at += 1
        elif text.startswith("--", at):
            if first:
                comments.add(line)
            at = text.find("\n", at) if "\n" in text[at:] else len(text)
        else:
            if sign == '"':
                end = at + 1
                while end < len(text) and text[end] != '"':
                    end += 2 if text[end] == "\\" else 1
                kind, end = "text", end + 1
            elif sign == ".":
                field = ATOM.match(text, at + 1)
                kind, end = ("field", field.end()) if field else ("dot", at + 1)
            elif sign in SIGNS:
                kind, end = sign, at + 1
            else:
                kind, end = "name", PATH.match(text, at).end()
            found.append(Word(kind, text[at:end], line, at - start, first))
            at, first = end, False
    return found, comments


OPENS, CLOSES = {"(": ")", "{": "}"}, {")", "}"}


def tree(flat):
    """Words as a tree: a bracket becomes the list of what it holds, its opening word first."""
    top = []
    stack = [top]
    for word in flat:
        if word.kind in OPENS:
            group = [word]
            stack[-1].append(group)
            stack.append(group)
        elif word.kind in CLOSES:
            if len(stack) > 1:
                stack.pop()
        else:
            stack[-1].append(word)
    return top


def is_name(node, text=None):
    return isinstance(node, Word) and node.kind == "name" and (text is None or node.text == text)


def position(nodes, *texts):
    """Where the first of these names stands, or None."""
    return next((i for i, node in enumerate(nodes) if isinstance(node, Word) and node.text in texts), None)


def binder(group):
    """The names that a group `(x y : A)` binds, and its type; None for another group."""
    colon = position(group[1:], ":")
    if colon is None or not colon or not all(is_name(node) for node in group[1 : colon + 1]):
        return None
    return {plain(node.text) for node in group[1 : colon + 1]}, group[colon + 2 :]


def bound_by(nodes):
    """The names that the groups `(x y : A)` of a head bind."""
    return set().union(*(own[0] for own in (binder(node) for node in nodes if isinstance(node, list)) if own))


def pattern(nodes, is_head, bound, out):
    """Takes the names of a pattern as bound, those of constructors as references."""
    for node in nodes:
        if isinstance(node, list):
            own = binder(node)
            if own:
                free(own[1], is_head, bound, out)
                bound |= own[0]
            else:
                pattern(node[1:], is_head, bound, out)
        elif node.kind == "name":
            if is_head(node.text):
                out.add(node.text)
            else:
                bound.add(plain(node.text))


def free(nodes, is_head, bound, out):
    """Puts the names that a term refers to into `out`; `is_head` tells a constructor's name from a variable's."""
    outer = set(bound)
    bound, branches = set(bound), []
    at = 0
    while at < len(nodes):
        node = nodes[at]
        if isinstance(node, list):
            own = binder(node)
            if own:
                free(own[1], is_head, bound, out)
                bound |= own[0]
            else:
                free(assigned(node), is_head, bound, out)
        elif node.kind in (",", ";"):
            bound, branches = set(outer), []
        elif node.kind == "name":
            text = node.text
            if text == "λ":
                dots = [i for i, n in enumerate(nodes) if i > at and isinstance(n, Word) and n.kind == "dot"]
                end = dots[0] if dots else len(nodes)
                pattern(nodes[at + 1 : end], is_head, bound, out)
                at = end
            elif text == "let":
                at = let(nodes, at, is_head, bound, out)
            elif text in ("[", "|"):
                if text == "[":
                    branches.append(set(bound))
                elif branches:
                    bound = set(branches[-1])
                ahead = position(nodes[at + 1 :], "↦", "|", "]")
                if ahead is not None and nodes[at + 1 + ahead].text == "↦":
                    pattern(nodes[at + 1 : at + 1 + ahead], is_head, bound, out)
                    at += 1 + ahead
            elif text == "]":
                if branches:
                    bound = branches.pop()
            elif plain(text.split(".")[0]) not in bound:
                out.add(text)
        at += 1


def let(nodes, at, is_head, bound, out):
    """Reads `let x : T = e in`, binds its name, and says where `in` stands."""
    equals = next((i for i in range(at, len(nodes)) if is_name(nodes[i], "=")), len(nodes))
    deep, end = 0, equals
    while end < len(nodes):
        deep += is_name(nodes[end], "let") - is_name(nodes[end], "in")
        if deep < 0:
            break
        end += 1
    colon = next((i for i in range(at, equals) if is_name(nodes[i], ":")), equals)
    free(nodes[colon + 1 : equals], is_head, bound, out)
    free(nodes[equals + 1 : end], is_head, bound, out)
    pattern(nodes[at + 1 : colon], is_head, bound, out)
    return end


def assigned(group):
    """What a group holds, without the names before an equals sign: `record { x = e; y = f }`, `{x = e}`."""
    if group[0].kind != "{":
        return group[1:]
    kept = []
    for at, node in enumerate(group[1:], 1):
        after = group[at + 1] if at + 1 < len(group) else None
        starts = at == 1 or isinstance(group[at - 1], Word) and group[at - 1].kind == ";"
        if not (starts and is_name(node) and is_name(after, "=")):
            kept.append(node)
    return kept


# ---- The declarations of .antt

MARKS = ("unfoldable", "abbrev", "axiom", "pub")


class Decl:
    """A declaration of an .antt file or a type of an .rt file.

    names: what it declares, constructors among it (all of a mutual block's are one declaration). heads: the
    constructors. lines: the numbers of its lines, with its comment's, without blank ones. uses: the names that it
    refers to. public: whether it is marked `pub`. type: the tree of a signature's type. params: that of a record's or
    data type's parameters. section: the words of the `module _` headers around it. parts: a mutual block's members.
    """

    def __init__(self, module, kind, name, public, lines):
        self.module, self.kind, self.name, self.public = module, kind, name, public
        self.names, self.heads, self.lines, self.uses = [name], set(), set(lines), set()
        self.type, self.params, self.section, self.parts = None, [], [], []

    def __repr__(self):
        return "%s.%s" % (self.module.name, self.name)


class Module:
    """A file of a crate's specs/ or proofs/: what it imports, passes on and declares.

    crate, part and path are as in crates/CRATE/PART/A/B.antt with the path (A, B); Lib.antt has the path ().
    """

    def __init__(self, crate, part, path, file, text):
        self.crate, self.part, self.path, self.file, self.text = crate, part, path, file, text
        self.children = {plain(name): bool(public) for public, name in re.findall(r"^(pub )?mod (\S+)", text, re.M)}
        self.total = len(text.splitlines())

    def __getattr__(self, attribute):
        """What only some scripts ask for is read when the first of it is asked for: the proofs are long."""
        if attribute.startswith("__") or "decls" in self.__dict__:
            raise AttributeError(attribute)
        self.imports, self.aliases, self.globs, self.passed = {}, {}, [], set()
        self.decls, self.pending = [], []
        flat, self.comments = words(self.text)
        self.block(flat, 0, [])
        self.own = {name: decl for decl in self.decls for name in decl.names}
        self.parts_of = {}
        for name in list(self.own) + list(self.imports):
            for piece in pieces(name):
                self.parts_of.setdefault(piece, set()).add(name)
        return getattr(self, attribute)

    def crates(self):
        """The crates that the file names, comments apart."""
        return crates_in(re.sub(r"(?m)(?:^|(?<=\s))--.*", "", self.text))

    @property
    def name(self):
        return ".".join((self.crate, self.part) + self.path)

    def block(self, flat, column, section):
        """Reads the items of a block whose lines begin at a column."""
        starts = [i for i, w in enumerate(flat) if w.first and w.column == column and w.kind not in CLOSES]
        current = None
        for start, end in zip(starts, starts[1:] + [len(flat)]):
            current = self.item(flat[start:end], section, current)

    def lines_of(self, item):
        """The lines of an item's words, and of the comments within it and right above it."""
        lines = set(w.line for w in item)
        lines |= {n for n in range(item[0].line, item[-1].line) if n in self.comments}
        above_it = item[0].line - 1
        while above_it in self.comments:
            lines.add(above_it)
            above_it -= 1
        return lines

    def item(self, item, section, current):
        """Reads an item of a block; gives the declaration that clauses after it belong to."""
        marks = 0
        while marks < len(item) and item[marks].text in MARKS:
            marks += 1
        public = any(w.text == "pub" for w in item[:marks])
        body = item[marks:]
        word = body[0].text if body else ""
        if word == "use":
            self.use(body, public)
            return None
        if word == "mod":
            return None
        if word in ("infix", "infixl", "infixr"):
            return current
        if word == "unfolding":
            if current:
                current.lines |= self.lines_of(item)
            return current
        if word == "mutual":
            return self.mutual(item, body[1:], section)
        if word == "module":
            where = next(i for i, w in enumerate(body) if w.text == "where")
            inner = body[where + 1 :]
            if inner:
                self.block(inner, inner[0].column, section + body[2:where])
            return None
        if word in ("data", "record"):
            return self.typed(item, body, public, section)
        if word == "open":
            return self.opened(item, body, public, section)
        if len(body) > 1 and self.is_signature(body):
            decl = self.add("value", plain(body[0].text), public, item, section)
            colon = next(i for i, w in enumerate(body) if w.text == ":")
            decl.type = tree(body[colon + 1 :])
            self.pending.append((decl, "term", decl.type))
            return decl
        # a clause, of the declaration whose name stands first, or of the one above (an operator's)
        current = next((d for d in reversed(self.decls) if d.kind == "value" and plain(word) in d.names), current)
        if current is None:
            where = "%s, line %d" % (self.file, item[0].line)
            raise Fault("%s: '%s ..' is no declaration that scripts/house can read" % (where, word))
        current.lines |= self.lines_of(item)
        self.pending.append((current, "clause", tree(body)))
        return current

    @staticmethod
    def is_signature(body):
        """`name : ..` or `name {ℓ} : ..`."""
        at = 1
        if body[at].kind == "{":
            while at < len(body) and body[at].kind != "}":
                at += 1
            at += 1
        return at < len(body) and body[at].text == ":" and body[0].kind == "name"

    def add(self, kind, name, public, item, section):
        decl = Decl(self, kind, name, public, self.lines_of(item))
        decl.section = section
        if section:
            self.pending.append((decl, "term", tree(section)))
        self.decls.append(decl)
        return decl

    def mutual(self, item, inner, section):
        """A mutual block is one declaration: one of its members is read with the others."""
        before = len(self.decls)
        if inner:
            self.block(inner, inner[0].column, section)
        members = self.decls[before:]
        del self.decls[before:]
        whole = self.add("mutual", members[0].name if members else "mutual", True, item, section)
        whole.names = [name for decl in members for name in decl.names]
        whole.heads = set().union(*(decl.heads for decl in members)) if members else set()
        whole.parts = members
        for decl in members:
            whole.lines |= decl.lines
        self.pending = [(whole if d in members else d, kind, nodes) for d, kind, nodes in self.pending]
        return whole

    def typed(self, item, body, public, section):
        """A data type or a record: its head, then its constructors or fields."""
        name = plain(body[1].text)
        decl = self.add(body[0].text, name, public, item, section)
        where = max((i for i, w in enumerate(body) if w.text == "where"), default=len(body))
        head = tree(body[2:where])
        colon = position(head, ":")
        decl.params = head[: len(head) if colon is None else colon]
        inner, bound = body[where + 1 :], list(decl.params)
        if not inner:
            self.pending.append((decl, "term", head))
            return decl
        column = inner[0].column
        starts = [i for i, w in enumerate(inner) if w.first and w.column == column and w.kind not in CLOSES]
        members = []
        for start, end in zip(starts, starts[1:] + [len(inner)]):
            part = inner[start:end]
            while part and part[0].text in MARKS:
                part = part[1:]
            if len(part) > 1 and part[1].text == ":":
                members.append((plain(part[0].text), tree(part[2:])))
        if decl.kind == "data":
            decl.names += [n for n, _ in members]
            decl.heads = {n for n, _ in members}
            self.pending.append((decl, "term", head))
            for _, type_ in members:
                self.pending.append((decl, "term", bound + type_))
        else:
            # a field is bound in the types of the fields after it
            self.pending.append((decl, "fields", (head, bound, members)))
        return decl

    def opened(self, item, body, public, section):
        """`open R t using (a, b as c)`: the opened names are declarations that refer to R and t."""
        using = next((i for i, w in enumerate(body) if w.text == "using"), len(body))
        names, group = [], [w for w in body[using + 1 :] if w.kind in ("name", ",")]
        for piece in " ".join(w.text for w in group).split(","):
            if piece.split():
                names.append(plain(piece.split()[-1]))
        if not names:
            return None
        decl = self.add("value", names[0], public, item, section)
        decl.names = names
        self.pending.append((decl, "term", tree(body[1:using])))
        return decl

    def use(self, body, public):
        """`use A.B.{a, b as c, N.d}`, `use A.B`, `use A.B as C`, `use A.*`."""
        path = [plain(p) for p in re.findall(ATOM.pattern, body[1].text)]
        if path and path[0] == "package":
            path = path[1:]
        rest = body[2:]
        if not rest and path[-1] == "*":
            self.globs.append((tuple(path[:-1]), public))
        elif rest and rest[0].kind == "field" and rest[0].text == ".*":
            self.globs.append((tuple(path), public))
        elif rest and rest[0].kind == "dot":
            items, current = [], []
            for w in rest[2:]:
                if w.kind in (",", "}"):
                    items.append(current)
                    current = []
                else:
                    current.append(w.text)
            for item in items:
                if item and item[0] in ("syntax", "record", "data") and len(item) > 1 and item[1] != "as":
                    item = item[1:]
                if not item:
                    continue
                steps = [plain(p) for p in re.findall(ATOM.pattern, item[0])]
                local = plain(item[2]) if len(item) == 3 and item[1] == "as" else steps[-1]
                self.imports[local] = tuple(path + steps)
                if public:
                    self.passed.add(local)
        else:
            local = plain(rest[1].text) if len(rest) == 2 and rest[0].text == "as" else path[-1]
            self.aliases[local] = tuple(path)
            if public:
                self.passed.add(local)


def pieces(name):
    """The words that an operator's name is used by: `if◌then◌else◌` by if, then and else."""
    if name.startswith("«") or PLACE not in name or name == PLACE:
        return []
    return [p for p in name.split(PLACE) if p]


def crates_in(text):
    return set(re.findall(r"(?<![\w.])Rattle\.(\w+)", text))
