"""What the sources declare, for tools/claims: statements, functions with their signatures and contracts, comments and imports.

Comments are no text of the code: a declaration, a contract or a required form inside one is not there."""
import functools
import glob
import os
import re

WORD = r"[\w'-]+"


def squeeze(text):
    return re.sub(r"\s+", " ", text).strip()


@functools.cache
def lines_of(path):
    return open(path).read().split("\n")


RATTLE_COMMENT = re.compile(r"\"(?:\\.|[^\"\\])*\"|'(?:\\.|[^'\\])'|//[^\n]*|/\*.*?\*/", re.S)
ANTT_COMMENT = re.compile(r"\"(?:\\.|[^\"\\])*\"|(?<!\S)--(?=\s)[^\n]*|\{-.*?-\}", re.S)


@functools.cache
def code_of(path):
    """The lines of a source without their comments; each stands where it stood."""

    def blank(found):
        text = found.group(0)
        return text if text[0] in "\"'" else "\n" * text.count("\n")

    text = (ANTT_COMMENT if path.endswith(".antt") else RATTLE_COMMENT).sub(blank, "\n".join(lines_of(path)))
    return [line.rstrip() for line in text.split("\n")]


def bare_of(path):
    """The lines of a source without those that are nothing but a comment."""
    return [code for raw, code in zip(lines_of(path), code_of(path)) if code or not raw.strip()]


def indent(line):
    return len(line) - len(line.lstrip())


def blocks(lines):
    """Lines as texts: a line of the least indentation begins one, deeper lines continue it."""
    lines = [line for line in lines if line.strip()]
    found, least = [], min(map(indent, lines), default=0)
    for line in lines:
        if indent(line) == least:
            found.append([])
        found[-1].append(line)
    return [squeeze(" ".join(part)) for part in found]


def module_at(lines, at):
    """The parameters of a module that begins here, to its `where`."""
    head = ""
    while not head.endswith(" where"):
        head = squeeze(head + " " + lines[at])
        at += 1
    return re.sub(r"^module \S+ ?", "", head)[:-len("where")].strip()


def declaration(lines, at, name):
    """The lines of the declaration of a name that begins here: deeper ones, and its clauses."""
    depth, end = indent(lines[at]), at + 1
    begins = r"\s*(unfolding |" + re.escape(name) + r"(\s|$))" if "◌" not in name else r"\s*(unfolding |\S+ " + re.escape(name.strip("◌")) + r" \S+ =)"
    while end < len(lines):
        blank = not lines[end].strip()
        line = lines[min(end + 1, len(lines) - 1)] if blank else lines[end]
        clause = not blank and indent(line) == depth and re.match(begins, line)
        if not clause and (not line.strip() or indent(line) <= depth):
            break
        end += 1
    return lines[at:end]


def antt_statement(path, name):
    """What the file declares under a name: the type or the head, then the clauses of the body or the fields. The least indented one."""
    declared = re.compile(r"^\s*((?:unfoldable |abbrev )*)(?:pub )?(record |data )?" + re.escape(name) + r"(?: \{[^}:]*\})?(?(2)(?: .*)?| :(?: .*)?)$")
    lines, modules, found = bare_of(path), [], None
    for at, line in enumerate(lines):
        modules = [module for module in modules if not line.strip() or module[0] < indent(line)]
        if line.lstrip().startswith("module "):
            modules.append((indent(line), module_at(lines, at)))
        told = declared.match(line)
        if not told or (found and found[0] <= indent(line)):
            continue
        taken = declaration(lines, at, name)
        parameters = " ".join(module[1] for module in modules)
        if told.group(2):
            parts = ([parameters + ":"] if parameters else []) + [squeeze(line)] + blocks(taken[1:])
        else:
            says, *clauses = blocks(taken)
            parts = [(parameters + " → " if parameters else "") + re.sub(r"^[^:]*: ?", "", says)]
            if told.group(1) or "/specs/" in path:
                parts += [clause for clause in clauses if not clause.startswith("unfolding ")]
        found = (indent(line), parts)
    return found and found[1]


class Function:
    """A function of a Rattle file: its qualified name, whether it is pub, whether an export, its signature, its requires and ensures, and the
    comment above it."""

    def __init__(self, name, public, export, signature, clauses, comment):
        self.name, self.public, self.export, self.signature, self.clauses, self.comment = name, public, export, signature, clauses, comment

    def parameters(self):
        """Parameter to its type."""
        inside = re.match(r"^[^(]*\((.*)\)(?: -> .*)?$", self.signature).group(1)
        return dict(squeeze(part).split(": ", 1) for part in re.split(r",(?![^\[(]*[\])])", inside) if ": " in part)

    def ensures(self):
        return [clause for clause in self.clauses if clause.startswith("ensures")]


def comment_above(path, at):
    """The comment above a line, as one line without its last full stop."""
    lines, found = lines_of(path), []
    while at > 0 and re.match(r"^\s*(//|#\[|\)\]$)", lines[at - 1]):
        at -= 1
        if lines[at].strip() == ")]":  # an attribute on several lines
            at = next(above for above in range(at, -1, -1) if lines[above].lstrip().startswith("#["))
        found[:0] = [re.sub(r"^\s*// ?", "", lines[at])] if lines[at].lstrip().startswith("//") else []
    return squeeze(" ".join(found)).rstrip(".")


CLAUSE = re.compile(r"\s*(?:(?:requires|ensures)\*?(?: \w+)? )\{")


def closed(text, at):
    """Where the brace that stands here is closed, behind it."""
    depth = 0
    for end in range(at, len(text)):
        depth += {"{": 1, "}": -1}.get(text[end], 0)
        if not depth:
            return end + 1
    return len(text)


def head_of(text):
    """The signature and the clauses of the function that begins a text."""
    at = re.search(r"\s(?=(?:requires|ensures)\b|\{)|;\n|\Z", text).start()
    found = [squeeze(text[:at])]
    while told := CLAUSE.match(text, at):
        end = closed(text, told.end() - 1)
        found.append(squeeze(text[at:end]))
        at = end
    return found


@functools.cache
def functions(path):
    found, owner, lines = [], None, code_of(path)
    for at, line in enumerate(lines):
        told = re.match(r"^impl (\w+)", line)
        owner = told.group(1) if told else None if line.startswith("}") else owner
        told = re.match(r"^(\s*)(pub )?(extern \"C\" )?fn (\w+)", line)
        if told:
            signature, *clauses = head_of("\n".join(lines[at:]))
            name = told.group(4) if owner is None or not told.group(1) else owner + "::" + told.group(4)
            signature = re.sub(r"\( ", "(", re.sub(r",? \)", ")", signature))
            found.append(Function(name, bool(told.group(2)), bool(told.group(3)), signature, clauses, comment_above(path, at)))
    return found


def function(path, name):
    return next((there for there in functions(path) if there.name == name), None) if os.path.exists(path) else None


def statement_parts(path, name):
    """The statement, None where the file does not declare it."""
    if not os.path.exists(path):
        return None
    if path.endswith(".antt"):
        return antt_statement(path, name)
    there = function(path, name)
    if there:
        return [there.signature] + (there.clauses or ["no contract"])
    told = re.search(r"^\s*pub const " + re.escape(name.split("::")[-1]) + r": ([^;]*);", "\n".join(code_of(path)), flags=re.M)
    return told and [squeeze(told.group(1))]


def sources():
    """The files of the libraries."""
    programs = tuple(os.path.dirname(path) + "/" for path in glob.glob("crates/*/src/main.rt"))
    return [path for path in sorted(glob.glob("crates/*/src/**/*.rt", recursive=True)) if not path.startswith(programs)]


def file_of(module):
    """The file of a module of the project; of a module of the kit the module itself."""
    told = re.match(r"^Rattle\.([^.]+)\.(specs|proofs)\.(.+)$", module)
    ours = told and os.path.isdir("crates/" + told.group(1))
    return "crates/{}/{}/{}.antt".format(told.group(1), told.group(2), told.group(3).replace(".", "/")) if ours else module


@functools.cache
def imported(path):
    """What a file imports: name to file, or module of the kit, and the name there."""
    marker, found = "" if path.endswith(".antt") else "ghost ", {}
    for module, names in re.findall(r"^" + marker + r"use ([^\s{]+)\.\{([^}]*)\}", "\n".join(code_of(path)), flags=re.M):
        for name in names.split(","):
            found[name.split(" as ")[-1].strip()] = (file_of(module), name.split(" as ")[0].strip())
    return found


@functools.cache
def module_names(path):
    """The modules that a file imports under a name: name to file, or module of the kit."""
    return {name: file_of(module) for module, name in re.findall(r"^(?:ghost )?use (\S+) as (\S+)$", "\n".join(code_of(path)), flags=re.M)}


HEAD = re.compile(r"^\s*(?:(?:unfoldable|abbrev|pub) )*(record |data )?(\S+)(?: \{[^}:]*\})?(?(1)(?: .*)?| :(?: .*)?)$")


@functools.cache
def heads(path):
    """The declarations of a file of specs or proofs: name, and the record or data type that it is a part of, if any."""
    found, inside = [], None
    for line in code_of(path):
        if line.strip() and inside and indent(line) <= inside[0]:
            inside = None
        told = HEAD.match(line)
        if told:
            found.append((told.group(2), inside and inside[1:]))
            inside = inside or told.group(1) and (indent(line), told.group(1).strip(), told.group(2))
    return found


def declared(path):
    """The names that a file declares, fields of records and constructors apart."""
    return {name for name, part in heads(path) if not part}


def constructors(path, types=None):
    """The constructors of the data types of a file, or of those told."""
    return {name for name, part in heads(path) if part and part[0] == "data" and (types is None or part[1] in types)}


def rests_on(files):
    """The files given, all that they import, and the modules of the kit among these."""
    known, waiting = set(), list(files)
    while waiting:
        path = waiting.pop()
        if path not in known:
            known.add(path)
            waiting += [source for source, _ in imported(path).values()] + list(module_names(path).values()) if os.path.exists(path) else []
    return known
