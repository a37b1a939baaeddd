"""Reads what the other checks look at: the definitions in specs/ and the contracts in src/ of all crates.

A definition stands at the beginning of a line of a file in specs/, or of a `module` in it, with its comment in the
lines right above it. A call is public where another crate can name it: an exported function, or a method of an exported
type or trait. A law is such a function, which does nothing.
"""
import collections
import functools
import pathlib
import re

TOP = pathlib.Path(__file__).resolve().parent.parent
CRATES = TOP / "crates"
WORD = r"[A-Za-z_][A-Za-z0-9_'\-]*"

# a definition: its lines are its type, and of a record or of data all of it
Definition = collections.namedtuple("Definition", "name kind comment lines number")
# a line that parts the definitions of a file
Heading = collections.namedtuple("Heading", "text")
# a call of a file, with what it is called on; the meanings of a trait stand as a call without a name
Call = collections.namedtuple("Call", "owner name comment signature clauses path number uses")

HEAD = re.compile(r"^((?:abbrev |unfoldable |opaque )*)pub (record |data |syntax )?(\S+)")
FUNCTION = re.compile(r"^( *)(pub )?(?:const )?(?:unsafe )?fn (\w+)")
BLOCK = re.compile(r"^(?:pub )?(?:unsafe )?(trait|impl)\b(.*)")
GHOST = re.compile(r"^    ghost (?!use\b|if\b|let\b|loop\b)(\w+)\b")


@functools.cache
def read(path):
    return path.read_text(encoding="utf-8")


def listed_crates():
    """The crates of crates.txt with the crates that each depends on, in its order."""
    listed = {}
    for line in read(TOP / "crates.txt").splitlines():
        head, colon, below = line.partition("#")[0].partition(":")
        if colon:
            listed[head.split()[0]] = below.split()
    return listed


def comment_above(lines, at, mark):
    """The lines of comment right above a line, without their marks."""
    first = at
    while first and lines[first - 1].lstrip().startswith(mark) and not lines[first - 1].lstrip().startswith("-- ----"):
        first -= 1
    return [re.sub(r"^(--|///?)", "", line.lstrip()).strip() for line in lines[first:at]]


def head_of(path):
    """The lines of comment at the beginning of a file, without their marks."""
    head = []
    for line in read(path).splitlines():
        mark = re.match(r"(--|//!) ?", line)
        if not mark:
            break
        head.append(line[mark.end():])
    return head


@functools.cache
def definitions(path):
    """The public definitions and the headings of a file in specs/, in their order. Those of a `module` are indented."""
    lines, found_ones = read(path).splitlines(), []
    margins = [0]
    for at, line in enumerate(lines):
        text = line.lstrip()
        indent = len(line) - len(text)
        if text.startswith("-- ----"):
            found_ones.append(Heading(text[7:].strip()))
        if not text or text.startswith("--"):
            continue
        while indent < margins[-1]:
            margins.pop()
        if indent > margins[-1]:
            continue
        if text.startswith("module "):
            margins.append(indent + 2)
        found = HEAD.match(text)
        if not found or found[3] in ("mod", "use"):
            continue
        end = at + 1
        while end < len(lines) and lines[end].startswith(" " * (indent + 1)):
            end += 1
        kind = (found[2] or found[1] or "law").split()[0]
        rows = [it[indent:] for it in lines[at:end]]
        found_ones.append(Definition(found[3].rstrip(":"), kind, comment_above(lines, at, "--"), rows, at + 1))
    return found_ones


def modules(crate):
    """The files of a crate's specs/, in the order in which they are declared."""
    folder = CRATES / crate / "specs"
    if not (folder / "Lib.antt").is_file():
        return
    for name in re.findall(r"^(?:pub )?mod (\w+)", read(folder / "Lib.antt"), re.M):
        if (folder / f"{name}.antt").is_file():
            yield folder / f"{name}.antt"


def without_brackets(text):
    """The text without what stands between angle brackets."""
    depth, kept = 0, []
    for before, sign in zip(" " + text, text):
        depth += sign == "<"
        if not depth:
            kept.append(sign)
        depth -= sign == ">" and before != "-" and depth > 0
    return "".join(kept)


def exported(crate):
    """The names that a crate's root file hands on; none where the crate is a program."""
    root = CRATES / crate / "src" / "lib.rt"
    if not root.is_file():
        return set()
    return {name for group in re.findall(r"^pub use ([^;]+);", read(root), re.M) for name in re.findall(r"\w+", group)}


def uses_in(lines):
    """What `use` lines bring: names with their module and their name there, and the modules by their short names."""
    names, short_names = {}, {}
    for line in lines:
        found = re.match(r"^ *(?:ghost |pub )?use Rattle\.([\w.]+?)(?:\.\{([^}]*)\}| as (\w+)|);?$", line)
        if not found:
            continue
        module, group, other = found.groups()
        if group is None:
            short_names[other or module.rsplit(".", 1)[1]] = module
        for one in filter(None, (it.strip() for it in (group or "").split(","))):
            real, _, other = one.partition(" as ")
            names[other.strip() or real.strip()] = (module, real.strip())
    return names, short_names


def calls(crate):
    """The public calls of a crate with their contracts, in the order of its files."""
    shown = exported(crate)
    for path in sorted((CRATES / crate / "src").rglob("*.rt")):
        if shown and "test" not in path.stem:
            yield from calls_of_file(path, shown)


def calls_of_file(path, shown):
    lines = read(path).splitlines()
    outside = [line for line in lines if re.match(r"^ghost use ", line)]
    kind, owner, title, inside, at = "", "", "", [], 0
    while at < len(lines):
        line = lines[at]
        block = BLOCK.match(line)
        if block:
            kind, title, inside = block[1], without_brackets(block[2]).split(" where ")[0].strip(" {"), []
            owner = re.sub(r".* for ", "", title).split(":")[0].strip()
        elif line.startswith("}"):
            kind, owner, title, inside = "", "", "", []
        elif line.startswith("    ghost use "):
            inside.append(line)
        function, ghost = FUNCTION.match(line), kind == "trait" and GHOST.match(line)
        end = at + 1
        if ghost and owner in shown:
            end = end_of_clauses(lines, at)
            yield Call(title, "", comment_above(lines, at, "//"), [], lines[at:end], path, at + 1, outside + inside)
        elif function:
            begin, end = contract_at(lines, at, len(function[1]))
            public = bool(function[2]) or kind == "trait" or " for " in title
            if public and (owner if function[1] else function[3]) in shown:
                above = at
                while lines[above - 1].lstrip().startswith("#["):
                    above -= 1
                yield Call(title if function[1] else "", function[3], comment_above(lines, above, "///"),
                           lines[at:begin], lines[begin:end], path, at + 1, outside + inside)
        at = end


def depth_in(line):
    """By how many braces the depth grows in a line, and whether the line ends by a semicolon; comments do not count."""
    code = re.sub(r"//.*", "", line).rstrip()
    return code.count("{") - code.count("}"), code.endswith(";")


def end_of_clauses(lines, at):
    """The line behind one thing that ends by a semicolon outside of braces."""
    depth, ends = 0, False
    while at < len(lines) and not (ends and not depth):
        more, ends = depth_in(lines[at])
        depth += more
        at += 1
    return at


def contract_at(lines, at, indent):
    """Where the clauses of a call begin and end: its body begins by a brace of its own, or there is none."""
    begin = at
    while not re.search(r"(;|[{}])$", lines[begin]) and not is_clause(lines[begin + 1]):
        begin += 1
    begin += 1
    end, depth, ends = begin, 0, begin == len(lines) or not is_clause(lines[begin])
    while not ends and (depth or not lines[end].startswith(" " * indent + "{")):
        more, ends = depth_in(lines[end])
        depth += more
        ends = ends and not depth
        end += 1
    return begin, end


def is_clause(line):
    return bool(re.match(r"^ *(ensures|requires|decreases|ghost)\b", line))


def cited(call):
    """The definitions that the clauses of a call name, as pairs of a module and a name there."""
    names, short_names = uses_in(call.uses)
    text = re.sub(r"//.*", "", "\n".join(call.clauses))
    behind_points = re.findall(rf"\b({WORD})\.({WORD})", text)
    found = {(short_names[short], name) for short, name in behind_points if short in short_names}
    found |= {names[word] for word in re.findall(rf"(?<![.\w])({WORD})", text) if word in names}
    return {(module, name) for module, name in found if not module.startswith(("std.", "core."))}


def definition_of(module, name, seen=()):
    """The file and the definition of a name, and no file for a type of the code. A file may hand on a name of another
    file, and a crate a file of another crate."""
    crate, _, rest = module.partition(".specs.")
    path = CRATES / crate / "specs" / (rest.replace(".", "/") + ".antt")
    if module in seen or ".declared." in module or not (CRATES / crate / "specs" / "Lib.antt").is_file():
        return None, None
    if not path.is_file():
        _, handed_on = uses_in(read(CRATES / crate / "specs" / "Lib.antt").splitlines())
        return definition_of(handed_on[rest], name, (*seen, module)) if rest in handed_on else (path, None)
    for it in definitions(path):
        if isinstance(it, Definition) and it.name == name:
            return path, it
    names, _ = uses_in(read(path).splitlines())
    return definition_of(*names[name], (*seen, module)) if name in names else (path, None)


@functools.cache
def cited_definitions():
    """The definitions that a clause of a public call names: by file and name, with the calls that name each."""
    found = collections.defaultdict(list)
    for crate in listed_crates():
        for call in calls(crate):
            for module, name in cited(call):
                path, definition = definition_of(module, name)
                if path:
                    found[path, name].append((crate, call, definition))
    return found
