#!/usr/bin/env python3
"""Makes a reference of the sources, for `make doc`: pages in docs/out that open as files.

    docs/reference.py                   writes docs/out
    docs/reference.py --believe NAME..  prints the definitions that names rest on, and their lines
    docs/reference.py --gaps            lists public functions without a clause, and those without an edit
    docs/reference.py --write           brings docs/clauses.txt and the made parts of documents up to date

A NAME is of a law, a function or a definition, if need be after its crate, as gf_canon::headline, or of a
clause, as headline.placed. A part of a document between `<!--made: ..-->` and `<!---->` is made here: `lines
NAMES - OTHERS` is how many lines the definitions have that NAMES rest on and OTHERS do not, and `files NAMES
- OTHERS` says this too, and lists their files. What the kit defines (Rattle.std) is not followed, nor how a value is kept
in memory (`ghost view`): a type with a model stands for its `ghost Value`.
"""
import html
import json
import re
import sys
from collections import defaultdict
from functools import cache
from itertools import groupby
from pathlib import Path

NAME = re.compile(r"(?<![\w.'])[A-Za-z_][\w']*(?:\.[A-Za-z_0-9][\w']*)*")
STRING = re.compile(r'"(?:\\.|[^"\\])*"')
TOKEN = re.compile(rf'--.*|{STRING.pattern}|{NAME.pattern}')
DECLARED = re.compile(r"( *)(?:((?:(?:abbrev|unfoldable|pub|data|record) )+)([^\s:(]\S*)|([A-Za-z_][\w'-]*) : )")
MODULE = re.compile(r" *(?:abbrev )?(module _|mutual)\b")
SKIPPED = re.compile(r"\s*$| *(?:-- ----|(?:pub )?use Rattle|pub mod|infix)")
IMPORT = re.compile(r"^ *(?:ghost |pub )?use (Rattle\.[\w.]+?)(?:\.\{(.*?)\}| as (\w+));?$", re.M)
FUNCTION = re.compile(r"( *)(pub(?:\([^)]*\))? )?(?:const |unsafe |extern \"C\" )*fn (\w+)")
TYPE = re.compile(r"(pub(?:\([^)]*\))? )?(struct|enum|trait|const|static|type) (\w+)")
IMPL = re.compile(r"impl(?:<.*?>)? (?:([\w:<>', ]+?) for )?&?([A-Z]\w*)")
CLAUSE = re.compile(r" *(requires|ensures|ghost)\*? ?(\w*) ?[:=]? ?\{")
EXPORT = re.compile(r"^pub use (?:crate::)?((?:\w+::)*)(?:\{([^}]*)\}|(\w+));", re.M)
MADE = re.compile(r"(<!--made: (.*?)-->)(.*?)(<!---->)", re.DOTALL)
CODE = ("function", "law", "impl")


class Item:
    """A definition, or an item of the code. Its key is its path, from its crate on."""

    def __init__(self, key, kind, file, line, comment, text, owner="", public=False):
        self.key, self.kind, self.file, self.line = key, kind, file, line
        self.comment, self.text, self.owner, self.public = comment, text, owner, public
        self.crate, self.name = key.split("::")[0], text[0] if kind == "impl" else key.split("::")[-1].rstrip("'")
        self.title = f"{owner}::{self.name}" if owner and kind == "function" else self.name
        self.end, self.body, self.mark, self.impl = 0, "", "", None  # impl: the impl or trait that it is in
        self.members, self.clauses = set(), []  # constructors and variants; word, name and text
        self.uses, self.by_clause, self.edits = set(), {}, []  # keys; edits that turn it, and where

    @property
    def lines(self):
        """Counts the lines that are not empty and hold more than a comment or an attribute."""
        return sum(1 for line in self.text if line.strip() and not re.match(r"\s*(--|//|#\[)", line))


def braced(lines, start):
    """Gives what the first brace at or after a line encloses, on one line, and the line that closes it."""
    depth, inside = 0, ""
    for number in range(start, len(lines)):
        bare = STRING.sub(lambda found: re.sub(r"[{}]", "\0", found[0]), lines[number])
        for shown, mark in zip(lines[number], bare):
            depth -= mark == "}"
            if mark == "}" and depth == 0:
                return " ".join(inside.split()), number
            inside += shown if depth else ""
            depth += mark == "{"
        inside += " "
    raise ValueError(lines[start])


class Sources:
    """All crates of a checkout: their definitions, and the items of their code."""

    def __init__(self, root):
        self.root = root
        self.crates = re.findall(r"^(\w+)[^:\n]*:", (root / "crates.txt").read_text(), re.M)
        self.items, self.files, self.values = {}, {}, {}
        for crate in self.crates:
            folder = root / "crates" / crate
            for path in sorted(folder.glob("specs/**/*.antt")):
                self.read_definitions(path, "::".join((crate, *path.relative_to(folder).with_suffix("").parts)))
            for path in sorted(folder.glob("src/**/*.rt")):
                parts = path.relative_to(folder / "src").with_suffix("").parts
                self.read_code(path, "::".join((crate, *parts)).removesuffix("::lib").removesuffix("::main"))
            self.export(crate, "".join(path.read_text() for path in folder.glob("src/lib.rt")))
        self.modules = {module: path for path, (module, _) in self.files.items()}
        self.by_name, self.cited = defaultdict(list), defaultdict(list)
        items = list(self.items.values())
        for name, item in dict.fromkeys((name, item) for item in items for name in (item.name, item.title)):
            self.by_name[name].append(item)
        for key, item in [(key, item) for item in items for key in self.find_uses(item)]:
            self.cited[key].append(item)
        for crate in self.crates:
            self.find_edits(crate)

    def add(self, module, name, *rest):
        """Keeps an item; a second one of its name, such as of another impl, has a mark at its end."""
        key = f"{module}::{name}"
        while key in self.items:
            key += "'"
        return self.items.setdefault(key, Item(key, *rest))

    def read_definitions(self, path, module):
        """Reads a file of specs/: each declaration, with the lines up to the next one."""
        self.files[path] = (module, text := path.read_text())
        current, comment, levels = None, [], [(0, None)]
        for number, line in enumerate(text.split("\n"), 1):
            margin = len(line) - len(line.lstrip())
            while line.strip() and margin < levels[-1][0]:
                levels.pop()
            at_level = margin == levels[-1][0]
            declared = at_level and (MODULE.match(line) or DECLARED.match(line))
            is_comment = line.lstrip().startswith("--")
            if SKIPPED.match(line) or is_comment and (at_level or not current):
                pass
            elif declared:
                is_module = declared.re is MODULE
                name = f"{declared[1].split()[0]} {number}" if is_module else declared[3] or declared[4]
                kind = re.findall(r"data|record|$", "" if is_module else declared[2] or "")[0] or "definition"
                current = self.add(module, name, "module" if is_module else kind, path, number, comment, [line])
                current.uses |= {outer for _, outer in levels if outer}
                if is_module:
                    levels.append((margin + 2, current.key))
            elif current:
                current.text.append(line)
                if current.kind == "data":
                    current.members |= set(re.findall(r"^\s+([\w']+) : ", line))
            comment = [*comment, line.strip()[2:].strip()] if is_comment and not SKIPPED.match(line) else []

    def read_code(self, path, module):
        """Reads a file of src/: types, traits, constants, functions with their clauses, and impls."""
        self.files[path] = (module, text := path.read_text())
        lines, docs, owner, mark = text.split("\n"), [], None, ""
        for number, line in enumerate(lines):
            owner = None if line.startswith("}") else owner
            if line.lstrip().startswith("///"):
                docs.append(line.strip()[3:].strip())
            elif found := re.match(r" *// (No (?:clause|edit): .+\.)$", line):
                mark = found[1]
            elif not line.lstrip().startswith(("#[", "//")):
                if item := self.read_item(lines, number, docs, owner, path, module):
                    item.mark = mark
                    owner = item if item.kind in ("trait", "impl") else owner
                docs, mark = [], ""

    def read_item(self, lines, number, docs, owner, path, module):
        """Reads the item that begins at a line, if one does."""
        line, place = lines[number], (path, number + 1, docs)
        if (found := FUNCTION.match(line)) and len(found[1]) <= (4 if owner else 0):
            kind, name = "law" if module.endswith("::laws") else "function", owner.owner if owner else ""
            item = self.add(module + f"::{name}" * bool(owner), found[3], kind, *place, [], name)
            item.public, item.impl = found[2] == "pub " or bool(owner) and owner.kind == "trait", owner
            return self.read_function(item, lines, number, found[1])
        if line.startswith("impl") and (found := IMPL.match(" ".join(lines[number:number + 4]).split(" {")[0])):
            name = f"impl {found[1]} for {found[2]}" if found[1] else f"impl {found[2]}"
            return self.read_ghosts(self.add(module, name, "impl", *place, [name], found[2]), lines, number)
        if found := TYPE.match(line):
            end = next(n for n in range(number, len(lines)) if re.match(r"(\S.*)?[;}]$|.*\";$", lines[n]))
            text = [line] if found[2] == "trait" else lines[number:end + 1]
            item = self.add(module, found[3], found[2], *place, text, found[3], found[1] == "pub ")
            if found[2] == "enum":
                item.members = set(re.findall(r"^    (\w+)", "\n".join(text), re.M))
            item.end, item.body = (end + 1, "\n".join(text)) if found[2] in ("const", "static") else (0, "")
            return self.read_ghosts(item, lines, number) if found[2] == "trait" else item
        return None

    def read_function(self, item, lines, number, margin):
        """Reads a signature, the clauses below it, and the body."""
        start, ends = number, (margin + "}", margin + "{}")
        while lines[number] not in (margin + "{", *ends):
            line = lines[number]
            if found := CLAUSE.match(line):
                text, number = braced(lines, number)
                item.clauses.append((found[1], found[2], text))
            else:
                item.text.append(re.sub(r"( \{|;| \{\})$", "", line.removeprefix(margin)))
            if lines[number].endswith(";") or not found and line.endswith((" {", " {}")):
                break
            number += 1
        if not lines[number].endswith((";", " {}")):
            number = next(n for n in range(number, len(lines)) if lines[n] in ends)
            item.body = "\n".join(lines[start:number + 1])
        item.end = number + 1
        return item

    def read_ghosts(self, item, lines, number):
        """Reads the ghost members of a trait or an impl; of a model only its value."""
        model = " Model for " in item.key
        while not lines[number].startswith("}") and not lines[number].endswith("{}"):
            found = re.match(r"    ghost (\w+) ?[:=] ?\{", lines[number])
            if found and (not model or found[1] == "Value"):
                item.clauses.append(("ghost", found[1], braced(lines, number)[0]))
                if model:
                    self.values[f"{item.crate}::{item.owner}"] = item
            number += 1
        return item

    def export(self, crate, library):
        """Leaves public what the root of a crate has itself or passes on, and what belongs to that."""
        passed = [(path.split("::")[:-1], name.strip()) for path, many, one in EXPORT.findall(library)
                  for name in (many or one).split(",")]
        passed += [([name], "") for name in re.findall(r"^pub mod (\w+);", library, re.M)]
        items = [item for item in self.items.values() if item.crate == crate]
        for item in [i for i in items if i.public and (not i.owner or i.kind not in CODE)]:
            module = item.key.split("::")[1:-1]
            item.public = not module or any(module[:len(p)] == p and n in ("", item.name) for p, n in passed)
        types = {item.owner for item in items if item.public and item.kind not in CODE}
        for item in [i for i in items if i.owner and i.kind in CODE]:
            item.public = item.owner in types and (bool(item.clauses) if item.kind == "impl" else item.public)

    @cache
    def scope_of(self, path):
        """Gives what the names stand for that a file imports or defines: an item, or 'file' and a module."""
        names = {}
        for path_of, many, other in IMPORT.findall(self.files[path][1]):
            for name, _, short in [n.partition(" as ") for n in re.split(r",\s*", many)]:
                names[other or short or name] = self.imported(path_of, name)
        for item in [i for i in self.items.values() if i.file == path and path.suffix == ".antt"]:
            names = {name: item.key for name in item.members} | names | {item.name: item.key}
        return {name: key for name, key in names.items() if key}

    def imported(self, path, name):
        """Gives the key of what an import names, or 'file' and a module, or nothing if it is not ours."""
        parts = [part for part in path.split(".")[1:] if part not in ("declared", "TheVariants", "TheConstants")]
        if ".specs.declared." in path:
            parts.remove("specs")
        for whole in ("::".join([*parts, name]), "::".join(parts), "::".join(parts[:-1])):
            if whole in self.items:
                return whole
        passed_on = self.modules.get("::".join(parts))
        if passed_on and name:
            return self.scope_of(passed_on).get(name)
        return f"file {'::'.join(parts)}" if passed_on else None

    def resolve(self, chain, scope, bound):
        """Gives the key that a name stands for, if it is not a variable."""
        head, _, rest = chain.partition(".")
        key, member = scope.get(head, ""), rest.split(".")[0]
        if key.startswith("file "):
            key = f"{key[5:]}::{member}"
            return key if key in self.items else None
        return key if key and (head not in bound or member in self.items[key].members) else None

    def bound_in(self, text, item, scope):
        """Gives the variables of a text: of lambdas, of types, and of the equations of a definition."""
        groups = re.findall(r"[({]([\w' ]+) : |λ ([\w' ()×.]+?)\.(?=\s|$)", text)
        bound = set(re.findall(r"[\w']+", " ".join(name for pair in groups for name in pair)))
        margin = re.match(" *", "".join(item.text))[0]
        for line in re.findall(rf"^{margin}{re.escape(item.name)}\b(?!.* : )(.*?)(?: =\s|$)", text, re.M):
            bound |= {name for name in NAME.findall(line) if "." not in name
                      and (name not in scope or name not in self.items.get(scope[name], item).members)}
        if item.kind in CODE:
            bound |= set(re.findall(r"(\w+): ", "\n".join(item.text))) | {"result", "self"}
        return bound

    def names_in(self, text, item):
        """Gives the keys of the items that a text names."""
        scope, bare = self.scope_of(item.file), STRING.sub('""', re.sub(r"--.*", "", text))
        bound = self.bound_in(bare, item, scope)
        return {self.resolve(chain, scope, bound) for chain in NAME.findall(bare)} - {None, item.key}

    def types_in(self, text, item):
        """Gives the keys of the types and traits of a signature."""
        kinds, text_of_file, found = ("struct", "enum", "trait"), self.files[item.file][1], set()
        for name in set(re.findall(r"\b[A-Z]\w+", text)):
            known = [i for i in self.by_name[name] if i.kind in kinds and i.key != item.key
                     and (i.crate == item.crate or f"{i.crate}::" in text_of_file)]
            found |= {min(known, key=lambda i: (i.file != item.file, i.crate != item.crate)).key} if known else set()
        return found

    def find_uses(self, item):
        """Finds what an item rests on: what its text or its clauses name, and the types of its signature."""
        text = "\n".join(line for line in item.text if not line.lstrip().startswith("//"))
        value = self.values.get(f"{item.crate}::{item.owner}") if item.kind in ("struct", "enum") else None
        if item.file.suffix == ".antt":
            item.uses |= self.names_in(text, item)
        elif value:
            item.text = [f"{item.kind} {item.name}, the value of which is {{ {value.clauses[0][2]} }}"]
            item.uses = self.names_in(value.clauses[0][2], item)
        else:
            item.uses |= self.types_in(text, item) if item.kind != "impl" else set()
            for number, (_, name, clause) in enumerate(item.clauses):
                item.by_clause[name or str(number)] = self.names_in(clause, item)
            item.uses |= set().union(*item.by_clause.values())
        return item.uses

    def keys_of(self, name):
        """Gives the keys that a name of the command line or of a document asks for."""
        crate, _, rest = name.partition("::") if name.split("::")[0] in self.crates else ("", "", name)
        base, _, clause = rest.partition(".")
        named = [i for i in self.by_name[base] if crate in ("", i.crate)]
        definitions = [i for i in named if "::specs::" in i.key and "::inner::" not in i.key]
        found = [i for i in named if i.public and i.kind != "impl"] or definitions or named
        if len(found) != 1 or clause and clause not in found[0].by_clause:
            raise LookupError(f"{len(found)} items have the name {name}")
        return found[0].by_clause[clause] if clause else found[0].uses if found[0].kind in CODE else {found[0].key}

    def believed(self, keys):
        """Gives definitions, and all that they rest on, in reading order: each file after those it rests on."""
        reached, due = {}, list(keys)
        while due:
            item = self.items[due.pop()]
            if item.key not in reached and item.kind not in CODE:
                reached[item.key] = item
                due += item.uses
        files, order, seen = {item.file for item in reached.values()}, [], set()

        def visit(file):
            if file in files - seen:
                seen.add(file)
                below = {self.items[key].file for item in reached.values() if item.file == file for key in item.uses}
                for other in sorted(below):
                    visit(other)
                order.append(file)
        for file in sorted(files, key=lambda f: (self.crates.index(self.files[f][0].split("::")[0]), f)):
            visit(file)
        return sorted(reached.values(), key=lambda i: (order.index(i.file), i.line))

    def believed_by_names(self, words):
        """Gives what the names before a '-' rest on, and those after it do not."""
        sides = [set().union(*map(self.keys_of, side.split())) for side in " ".join(words).split(" - ")]
        first, *others = map(self.believed, sides)
        return [item for item in first if not any(item in other for other in others)]

    def find_edits(self, crate):
        """Gives the edits of a crate to the public functions that they turn, at once or through private ones."""
        folder = self.root / "crates" / crate
        functions = [i for i in self.items.values() if i.crate == crate and i.end]
        calls = {i.key: set(re.findall(r"(?:\w+::|\.)?\w+(?=\()", i.body) + re.findall(r"[A-Z]\w+", i.body))
                 for i in functions}

        def may_call(caller, item):
            if item.kind not in CODE or item.impl and " for " in item.impl.name:
                return item.owner in calls[caller.key]
            of = (item.owner + "::", "Self::", ".") if item.owner else ("", item.file.stem + "::")
            return item.owner in self.files[caller.file][1] and calls[caller.key] & {word + item.name for word in of}
        for edit in sorted(folder.glob("must-fail/*.edit")):
            parts = re.findall(r"^file: (.*)\n((?:(?!file: ).*\n?)*)", edit.read_text(), re.M)
            for file, old in [(folder / name, old) for name, changes in parts
                              for old in re.findall(r"^old: (?!///|use )(.*)$", changes, re.M)]:
                line = self.files[file][1].split(old)[0].count("\n") + 1
                due = [i for i in functions if i.file == file and i.line <= line <= i.end]
                for item in due:
                    if item.public or item.impl and " for " in item.impl.name and item.impl.public:
                        (item if item.public else item.impl).edits.append(f"{edit.stem} in {due[0].title}")
                    else:
                        due += [i for i in functions if i not in due and may_call(i, item)]

    def gaps(self):
        """Gives the public functions without a clause, and those without an edit, but for those with a mark."""
        public = [i for i in self.items.values() if i.kind == "function" and i.public and not i.mark]
        return [i for i in public if not i.clauses], [i for i in public if i.body and not i.edits]

    def clauses(self):
        """Gives a line for each public clause: its crate, its item, its word and name, and its text."""
        return [f"{item.crate} {item.title} {word} {name}".rstrip() + f": {text}\n"
                for item in self.items.values() if item.public and item.kind not in ("struct", "enum")
                for word, name, text in item.clauses]


STYLE = """body{font:16px/1.5 sans-serif;max-width:60em;margin:1em auto;padding:0 1em}input{width:100%}
pre{background:#f4f4f4;padding:.6em;white-space:pre-wrap}.c,small{color:#666}section{border-top:1px solid #ddd}"""
SEARCH = """<input id=q placeholder="search a name" autofocus><ul id=r></ul><script>const names=NAMES;
q.oninput=()=>{r.innerHTML=names.filter(n=>q.value&&n[0].toLowerCase().includes(q.value.toLowerCase()))
.slice(0,60).map(n=>`<li><a href="${n[1]}">${n[0]} (${n[2]})</a>`).join("")}</script>"""


class Reference(Sources):
    """The pages of a reference, and the parts of documents that are made of the same sources."""

    def address(self, item):
        page = item.crate + ("" if item.public and item.kind in CODE else "-definitions")
        return f"{page}.html#" + re.sub(r"[^\w.]", "_", item.key.replace("::", "."))

    def link(self, item):
        return f'<a href="{self.address(item)}">{html.escape(item.title)}</a>'

    def linked(self, text, item):
        """Gives a source text in which each name is a link; the text of an item of the code names types alone."""
        items, is_code = self.items, item.file.suffix == ".rt" and text == "\n".join(item.text)
        scope = {} if is_code else self.scope_of(item.file)
        bound = self.bound_in(STRING.sub('""', text), item, scope)
        types = {items[key].name: key for key in item.uses if "::specs::" not in key or item.kind not in CODE}

        def shown(found):
            word = found[0]
            key = types.get(word) if is_code else self.resolve(word, scope, bound)
            if word.startswith("--"):
                return f"<span class=c>{word}</span>"
            return f'<a href="{self.address(items[key])}">{word}</a>' if key and key != item.key else word
        return TOKEN.sub(shown, html.escape(text, quote=False))

    def checks(self, item):
        """Gives the laws that cite a definition, or else the nearest of those that rest on it."""
        due, seen, laws = {item.key}, set(), []
        while due and not laws:
            citing = {i.key: i for key in due for i in self.cited[key]}
            laws, seen = [i for i in citing.values() if i.kind == "law"], seen | due
            due = {key for key in citing if "::specs::" in key} - seen
        return laws

    def section(self, item):
        """Gives what a page says of one item."""
        place, items = item.file.relative_to(self.root), self.items
        parts = [f'<section id="{self.address(item).split("#")[1]}"><h3>{html.escape(item.title)} '
                 f'<small>{item.kind}, <a href="../../{place}">{place}</a>:{item.line}</small></h3>']
        parts += ["<p>" + html.escape(part).replace("\n- ", "<br>- ")
                  for part in "\n".join(item.comment).split("\n\n")]
        parts += [f"<pre>{self.linked(chr(10).join(item.text), item)}</pre>"]
        parts += [f"<pre>{word} <b>{name}</b> {{ {self.linked(text, item)} }}</pre>"
                  for word, name, text in item.clauses]
        cited = [i for i in self.cited[item.key] if i.kind not in CODE or i.public and i.kind != "law"]
        for words, others in (("Rests on", [items[key] for key in sorted(item.uses)]), ("Cited by", cited),
                              ("Checked by", self.checks(item) if item.kind not in CODE else [])):
            links = [self.link(other) for other in others if other.kind != "module" and "::inner::" not in other.key]
            parts += [f"<p><small>{words}</small> " + ", ".join(links)] if links else []
        if item.kind in CODE:
            below = self.believed(item.uses)
            parts += [f"<p><small>To believe: {len(below)} definitions, {sum(i.lines for i in below)} lines</small>"]
        parts += [f"<p><small>Must fail:</small> {edit}" for edit in dict.fromkeys(item.edits)]
        return "\n".join([*parts, f"<p><small>{item.mark}</small>", "</section>"])

    def opening(self, file):
        """Gives the first sentence of the comment that begins a file."""
        lines = re.findall(r"\A(?:(?:--|//!) .*\n)*", self.files[file][1])[0].splitlines()
        return re.split(r"(?<=\.) ", " ".join(line[3:].strip() for line in lines))[0]

    def page(self, title, parts):
        return (f"<!doctype html><meta charset=utf-8><title>{title}</title><style>{STYLE}</style>"
                f'<p><a href="index.html">All names</a><h1>{title}</h1>' + "\n".join(parts))

    def headline(self):
        """Gives the page of the law `headline` and what it rests on, in the order of docs/DEFINITIONS.md."""
        document = "".join(path.read_text() for path in self.root.glob("docs/DEFINITIONS.md"))
        items = {law.key: law for law in self.by_name["headline"]}
        for words in [*re.findall(r"<!--made: files (.*?)-->", document), "headline"]:
            items |= {item.key: item for item in self.believed_by_names(words.split())}
        parts = [self.section(item) for item in items.values() if item.kind != "module"]
        page, here = self.page("What the headline rests on", parts), set(map(self.address, items.values()))
        return re.sub(r'(href=")([^"#]+)(#[^"]+)', lambda f: f[1] + f[2] * (f[2] + f[3] not in here) + f[3], page)

    def write(self, folder):
        """Writes a page for each crate, one for its definitions, the headline's, and the first page."""
        folder.mkdir(exist_ok=True)
        names, index = [], []
        for crate in self.crates:
            items = [i for i in self.items.values() if i.crate == crate and i.kind != "module"]
            public = [i for i in items if i.public and i.kind in CODE]
            for name, kept in ((crate, public), (f"{crate}-definitions", [i for i in items if i.kind not in CODE])):
                parts = []
                for file, group in groupby(kept, key=lambda item: item.file):
                    parts += [f"<h2>{file.stem}</h2><p>{html.escape(self.opening(file))}", *map(self.section, group)]
                (folder / f"{name}.html").write_text(self.page(name.replace("-", ": "), parts))
                names += [(i.title, self.address(i), f"{i.kind}, {crate}") for i in kept if i.kind != "impl"]
            index.append(f'<li><a href="{crate}.html">{crate}</a>: {", ".join(map(self.link, public))}; '
                         f'<a href="{crate}-definitions.html">definitions</a>')
        (folder / "headline.html").write_text(self.headline())
        (folder / "index.html").write_text(self.page("Reference", [
            SEARCH.replace("NAMES", json.dumps(names)), '<p><a href="headline.html">The headline</a><ul>', *index]))

    def made(self, words):
        """Gives the part of a document that these words ask for."""
        items = self.believed_by_names(words.split()[1:])
        total, rows = sum(item.lines for item in items), ""
        for crate, kept in groupby(items, key=lambda item: item.crate):
            rows += f"- [{crate}](../crates/{crate}): " + ", ".join(
                f"{file.name.removesuffix('.antt')} {sum(item.lines for item in group)}"
                for file, group in groupby(kept, key=lambda item: item.file)) + ".\n"
        return f"{total} lines:\n{rows}" if words.startswith("files ") else str(total)

    def remade(self, text):
        """Gives a document with its made parts as they should be."""
        return MADE.sub(lambda found: found[1] + self.made(found[2]) + found[4], text)


def main(words):
    reference = Reference(root := Path(__file__).resolve().parent.parent)
    if not words:
        reference.write(root / "docs/out")
    elif words[0] == "--believe":
        items = reference.believed_by_names(words[1:])
        print("".join(f"{i.lines:4} {i.key}\n" for i in items) + f"{sum(i.lines for i in items):4} lines")
    elif words == ["--gaps"]:
        for title, items in zip(("no clause", "no edit"), reference.gaps()):
            print(*(f"{title}: {item.crate} {item.title}\n" for item in items), sep="", end="")
    elif words == ["--write"]:
        (root / "docs/clauses.txt").write_text("".join(reference.clauses()))
        for document in [*root.glob("*.md"), *root.glob("docs/*.md")]:
            document.write_text(reference.remade(document.read_text()))
    else:
        sys.exit(__doc__)


if __name__ == "__main__":
    main(sys.argv[1:])
