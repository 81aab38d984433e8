"""Which functions of crates/*/src are reached from `main`, and which from the tests, by following names.

A contract, a definition or a proof reaches nothing: what stands behind `requires`, `ensures` and `ghost` is left out. A plain
name is the function of its own file or of what the file imports. `X::f` is a method of a type or a trait of this name, and
`.f(` one of any type that the crate can see and that something reached names; through a trait it is one of all such types that
implement it. So more counts as reached than is, and what isn't reached by names is reached by nothing.
"""
import glob
import os
import re

TOKEN = re.compile(r"""//[^\n]*|/\*.*?\*/|r(\#+)".*?"\1|b?"(?:\\.|[^"\\])*"|b?'(?:\\.[^']*|[^'\\])'|'\w+|[^\W\d]\w*|\d\w*|::|->|=>|\S""", re.S)
CLAUSES = ("requires", "ensures")


class Function:
    def __init__(self, crate, path, owner, trait, name, is_public):
        self.crate, self.path, self.owner, self.trait, self.name = crate, path, owner, trait, name
        self.is_public = is_public
        self.plain, self.paths, self.dotted = set(), set(), set()

    def shown(self):
        return f"{self.owner}::{self.name}" if self.owner else self.name


class Type:
    def __init__(self, crate, name):
        self.crate, self.name, self.names = crate, name, set()


class File:
    """What one file imports: names with the path by which they come, and whether all of some module comes."""

    def __init__(self, crate, path):
        self.crate, self.path, self.imports, self.has_glob = crate, path, {}, False


def tokens_of(text):
    kept = (it[0] for it in TOKEN.finditer(text))
    return [it for it in kept if not it.startswith(("//", "/*", '"', 'b"', "'", "b'")) and not it.startswith(("r#", 'r"'))]


def is_word(token):
    return token[0].isalpha() or token[0] == "_"


def behind(tokens, at):
    """The place behind the group that opens here."""
    deep = 0
    while at < len(tokens):
        deep += (tokens[at] in "({[") - (tokens[at] in ")}]")
        at += 1
        if deep == 0:
            break
    return at


def behind_clause(tokens, at):
    """The place behind a clause, whose word stands here: a name may stand before its braces."""
    while tokens[at] != "{":
        at += 1
    return behind(tokens, at)


def behind_ghost(tokens, at):
    """The place behind a ghost item or field, whose word `ghost` stands here."""
    while tokens[at] not in ("{", ";"):
        at += 1
    return at + 1 if tokens[at] == ";" else behind(tokens, at)


def bare(tokens):
    """These without clauses and ghost parts."""
    kept, at = [], 0
    while at < len(tokens):
        if tokens[at] in CLAUSES:
            at = behind_clause(tokens, at)
        elif tokens[at] == "ghost":
            at = behind_ghost(tokens, at)
        else:
            kept.append(tokens[at])
            at += 1
    return kept


def of_path(tokens, at):
    """The word that stands before this `::`, behind which its arguments may stand; none before an open bracket."""
    at -= 1
    if tokens[at] == ">":
        deep = 0
        while at > 0 and (deep or tokens[at] == ">"):
            deep += (tokens[at] == ">") - (tokens[at] == "<")
            at -= 1
        at -= tokens[at] == "::"
    return tokens[at] if at >= 0 and is_word(tokens[at]) else ""


def note_names(of, tokens):
    """Notes for a function what its tokens name."""
    for at, token in enumerate(tokens):
        if not is_word(token):
            continue
        before = tokens[at - 1] if at else ""
        after = tokens[at + 1] if at + 1 < len(tokens) else ""
        if before == ".":
            if after in ("(", "::"):
                of.dotted.add(token)
        elif before == "::":
            of.paths.add((of_path(tokens, at - 1), token))
        else:
            of.plain.add(token)


def imported(file, tokens, path=()):
    """Notes what a `use` imports, whose tokens up to its `;` these are."""
    at = 0
    while at < len(tokens):
        if tokens[at] == "{":
            end = behind(tokens, at)
            parts, start, deep = [], at + 1, 0
            for i in range(at + 1, end):
                deep += (tokens[i] == "{") - (tokens[i] == "}" and i < end - 1)
                if deep == 0 and (tokens[i] == "," or i == end - 1):
                    parts.append(tokens[start:i])
                    start = i + 1
            for part in parts:
                imported(file, part, path)
            return
        if tokens[at] == "*":
            file.has_glob = True
        elif tokens[at] == "as":
            file.imports[tokens[at + 1]] = path
            return
        elif is_word(tokens[at]):
            path += (tokens[at],)
        at += 1
    if path:
        file.imports[path[-1]] = path


class Sources:
    """All functions, types, files and what each crate sees, read from crates.txt and crates/*/src."""

    def __init__(self, top):
        with open(f"{top}/crates.txt", encoding="utf-8") as file:
            named = dict(re.findall(r"^(\w+):(.*)$", file.read(), re.M))
        self.sees = {}
        for crate, below in named.items():
            self.sees[crate] = {crate}.union(*(self.sees.get(it, ()) for it in below.split()))
        self.functions, self.types, self.files, self.traits, self.aliases = [], [], {}, {}, {}
        self.led = {}
        for crate in named:
            for path in sorted(glob.glob(f"{top}/crates/{crate}/src/*.rt")):
                with open(path, encoding="utf-8") as file:
                    tokens = tokens_of(file.read())
                at = os.path.relpath(path, top)
                self.files[at] = File(crate, at)
                self.items(self.files[at], tokens, "", "", False)
        self.by_name, self.types_by_name = {}, {}
        for it in self.functions:
            self.by_name.setdefault(it.name, []).append(it)
        for it in self.types:
            self.types_by_name.setdefault(it.name, []).append(it)

    def items(self, file, tokens, owner, trait, all_public):
        """Reads the items of a file, or of what an `impl` or a `trait` has in its braces."""
        at, is_public = 0, False
        while at < len(tokens):
            token = tokens[at]
            if token == "#":
                at = behind(tokens, at + 1 + (tokens[at + 1] == "!"))
            elif token == "ghost":
                at = behind_ghost(tokens, at) if tokens[at + 1] != "use" else tokens.index(";", at) + 1
            elif token == "use":
                end = tokens.index(";", at)
                imported(file, tokens[at + 1:end])
                at = end + 1
            elif token == "pub":
                is_public = tokens[at + 1] != "("
                at = at + 1 if is_public else behind(tokens, at + 1)
                continue
            elif token == "fn":
                at = self.function(file, tokens, at, owner, trait, is_public or all_public)
            elif token in ("struct", "enum", "type", "const") and tokens[at + 1] != "fn":
                at = self.data(file, tokens, at, owner)
            elif token in ("impl", "trait"):
                at = self.block(file, tokens, at, is_public)
            elif token in ("const", "unsafe", "final", "extern", "mod"):
                at = at + 1 if token != "mod" else tokens.index(";", at) + 1
                continue
            else:
                at += 1
                continue
            is_public = False

    def function(self, file, tokens, at, owner, trait, is_public):
        made = Function(file.crate, file.path, owner, trait, tokens[at + 1], is_public)
        head, at = [], at + 2
        while tokens[at] not in ("{", ";"):
            if tokens[at] in CLAUSES or tokens[at] == "ghost":
                at = behind_clause(tokens, at)
            elif tokens[at] in "([":
                end = behind(tokens, at)
                head += bare(tokens[at:end])
                at = end
            else:
                head.append(tokens[at])
                at += 1
        end = behind(tokens, at) if tokens[at] == "{" else at + 1
        note_names(made, head + bare(tokens[at:end]))
        self.functions.append(made)
        return end

    def data(self, file, tokens, at, owner):
        """A type, an alias or a constant. What stands in a block is noted for the block's type."""
        kind, made = tokens[at], Type(file.crate, owner or tokens[at + 1])
        start = at = at + 2
        while tokens[at] not in ("{", ";"):
            at = behind(tokens, at) if tokens[at] in "([" else at + 1
        end = behind(tokens, at) if tokens[at] == "{" else at + 1
        if kind == "const":
            while tokens[at] != ";":
                at = behind(tokens, at) if tokens[at] in "([{" else at + 1
            end = at + 1
            constant = Function(file.crate, file.path, owner, "", tokens[start - 1], False)
            note_names(constant, bare(tokens[start:end]))
            self.functions.append(constant)
        else:
            made.names = {it for it in bare(tokens[start:end]) if is_word(it)}
            self.types.append(made)
            if kind == "type":
                self.aliases.setdefault(tokens[start - 1], set()).update(made.names)
        return end

    def block(self, file, tokens, at, is_public):
        is_trait, head, start = tokens[at] == "trait", [], at + 1
        at, deep = at + 1, 0
        while tokens[at] != "{":
            if tokens[at] in CLAUSES or tokens[at] == "ghost":
                at = behind_clause(tokens, at)
                continue
            deep += (tokens[at] == "<") - (tokens[at] == ">")
            head.append((tokens[at], deep))
            at += 1
        end = behind(tokens, at)
        flat = [it for it, deep in head if deep == 0 and is_word(it) and it not in ("dyn", "mut")]
        if "where" in flat:
            flat = flat[:flat.index("where")]
        if is_trait:
            self.traits.setdefault(flat[0], []).append(file.crate)
            self.types.append(Type(file.crate, flat[0]))
            self.items(file, tokens[at + 1:end - 1], flat[0], flat[0], is_public)
        elif "for" in flat:
            split = flat.index("for")
            self.items(file, tokens[at + 1:end - 1], (flat[split + 1:] or [""])[-1], flat[split - 1], False)
        else:
            self.items(file, tokens[at + 1:end - 1], flat[-1], "", False)
        return end

    def free(self, name, crate, file):
        """The free functions that this plain name may be in a file."""
        here = [it for it in self.by_name.get(name, ()) if not it.owner and it.path == file.path]
        path = file.imports.get(name)
        if path:
            here = here + self.along(path, crate)
        elif not here and file.has_glob:
            here = [it for it in self.by_name.get(name, ()) if not it.owner and it.crate in self.sees[crate]]
        return here

    def along(self, path, crate, seen=()):
        """The free functions to which the path of an import leads, through what crates hand on."""
        name = path[-1]
        at = crate if path[0] in ("crate", "self", "super") else path[0]
        if at not in self.sees or (at, name) in seen:
            return []
        if (at, name) not in self.led:
            found = [it for it in self.by_name.get(name, ()) if not it.owner and it.crate == at]
            for file in self.files.values():
                if file.crate == at and name in file.imports:
                    found += self.along(file.imports[name], at, (*seen, (at, name)))
            self.led[at, name] = found
        return self.led[at, name]


class Reached:
    """What is reached from some functions."""

    def __init__(self, sources, roots):
        self.sources, self.functions, self.types = sources, set(), set()
        self.dotted, self.pathed, self.named = {}, {}, {}
        self.due = list(roots)
        while self.due:
            while self.due:
                self.reach(self.due.pop())
            self.due = [it for it in sources.functions if it.owner and it not in self.functions and self.is_called(it)]

    def reach(self, it):
        if it in self.functions:
            return
        self.functions.add(it)
        sources, file = self.sources, self.sources.files[it.path]
        for path in file.imports.values():
            if path[-1] in sources.traits:
                self.reach_type(path[-1], it.crate)
        for name in it.plain:
            self.due += sources.free(name, it.crate, file)
            self.reach_type(name, it.crate, file)
        for of, name in it.paths:
            self.reach_type(name, it.crate, file)
            of = it.owner if of == "Self" else of
            self.named.setdefault(name, set()).add(it.crate)
            for one in {of, file.imports.get(of, (of,))[-1], *sources.aliases.get(of, ())}:
                self.pathed.setdefault((one, name), set()).add(it.crate)
            if not of[:1].isupper():
                self.due += [to for to in sources.by_name.get(name, ()) if not to.owner and to.crate in sources.sees[it.crate]]
        for name in it.dotted:
            self.dotted.setdefault(name, set()).add(it.crate)

    def reach_type(self, name, crate, file=None):
        if file and name in file.imports:
            name = file.imports[name][-1]
        for it in self.sources.types_by_name.get(name, ()):
            if it not in self.types and it.crate in self.sources.sees[crate]:
                self.types.add(it)
                for part in it.names:
                    self.reach_type(part, it.crate)

    def is_called(self, it):
        """Whether a method is called, of a type that is reached."""
        sources = self.sources
        own = [to for to in sources.types_by_name.get(it.owner, ()) if to.crate in sources.sees[it.crate]]
        if own and not any(to in self.types for to in own):
            return False
        if it.trait and it.trait not in sources.traits:
            return True
        if it.trait:
            return it.name in self.dotted or it.name in self.named
        callers = self.dotted.get(it.name, set()) | self.pathed.get((it.owner, it.name), set()) | self.pathed.get(("", it.name), set())
        if not own:
            callers |= self.named.get(it.name, set())
        return any(it.crate in sources.sees[crate] for crate in callers)


def unreached(top):
    """The public functions that `main` doesn't reach, by file and name, each with whether the tests reach it."""
    sources = Sources(top)
    main = Reached(sources, [it for it in sources.functions if it.crate == "aire" and it.name == "main"])
    tests = Reached(sources, [it for it in sources.functions if it.crate.endswith("_tests")])
    found = {}
    for it in sources.functions:
        if it.is_public and not it.crate.endswith("_tests") and it not in main.functions:
            found[it.path, it.shown()] = it in tests.functions
    public = {(it.path, it.shown()) for it in sources.functions if it.is_public}
    return found, public
