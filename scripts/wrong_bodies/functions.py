"""Which function a line of a source belongs to, and how the prover calls it. Sources have the layout of `rt fmt`."""
import functools
import re
from dataclasses import dataclass

from wrong_bodies.edits import TOP

HEAD = re.compile(
    r'( *)(?:pub(?:\([^)]*\))? )?((?:(?:const|unsafe|async|default|extern "C") )*)(fn|impl|mod|trait)\b(.*)'
)
CYCLE = re.compile(r"#\[cycle\((\w+)\)\]")
TYPE = re.compile(r"^ *(?:pub(?:\([^)]*\))? )?(?:struct|enum|union) (\w+)", re.M)


@dataclass(frozen=True)
class Function:
    """A function: its path below the crate, the cycle of calls that it says it is in, and the lines of its file, from
    its attributes to its end, with the first of its body."""

    path: str
    cycle: str
    file: str
    first: int
    begins: int
    last: int

    def proved_with(self):
        """Returns what is proved by itself: the function, or its cycle."""
        return f"+{self.cycle}" if self.cycle else self.path

    def has(self, file, line):
        """Tells whether a place is one of this function, or of the files of its proof."""
        if file == self.file:
            return self.first <= line <= self.last
        if self.cycle:
            return file.startswith("proofs/") and f"+{self.cycle}" in file.split("/")
        return file.startswith(f"proofs/{self.path.replace('::', '/')}/")


def without_brackets(text):
    """Drops what stands between < and >, with them."""
    kept, depth = "", 0
    for at, letter in enumerate(text):
        if letter == "<":
            depth += 1
        elif letter == ">" and text[at - 1] != "-":
            depth -= 1
        elif not depth:
            kept += letter
    return kept


def last_name(path):
    """Returns the last name of a type's or a trait's path, with no references and no parameters."""
    names = re.findall(r"\w+", re.sub(r"'\w+|\b(mut|dyn|where)\b", "", without_brackets(path)))
    return names[-1] if names else ""


def split_parameters(text):
    """Parts the parameters in front of an impl's head from the rest."""
    if not text.startswith("<"):
        return "", text
    depth = at = 0
    for at, letter in enumerate(text):
        depth += (letter == "<") - (letter == ">" and text[at - 1] != "-")
        if not depth:
            break
    return text[1:at], text[at + 1:]


def types_given(path):
    """Returns the names of the types that a type or a trait is given."""
    given = re.match(r"[^<]*<(.*)>\s*$", path)
    return [it for it in map(last_name, given[1].split(",")) if it] if given else []


def path_of_impl(head, inside, homes):
    """Returns how the prover calls an impl in a module: by its type and its trait, with the types that are given to the
    trait. What a type has of its own stands under the type, unless it is there for some types given alone."""
    parameters, text = split_parameters(head.partition(" where ")[0].strip(" {"))
    trait, _, of = text.rpartition(" for ")
    name = last_name(of)
    if trait and last_name(trait) != "Drop":
        return [*inside, name + last_name(trait) + "".join(types_given(trait))]
    own = re.findall(r"\w+", parameters)
    given = [it for it in types_given(of) if it not in own]
    return [*inside, "+".join([name, *given])] if given else [*homes.get(name, inside), name]


def module_of(file):
    names = file[:-len(".rt")].split("/")[1:]
    return names[:-1] if names[-1] in ("lib", "main", "mod") else names


@functools.lru_cache(maxsize=None)
def homes_of(crate):
    """Returns the modules of a crate's types by their names, of those that are the names of one type."""
    modules = {}
    for file in (TOP / "crates" / crate).glob("src/**/*.rt"):
        for name in TYPE.findall(file.read_text(encoding="utf-8")):
            modules.setdefault(name, []).append(module_of(str(file.relative_to(TOP / "crates" / crate))))
    return {name: found[0] for name, found in modules.items() if len(found) == 1}


def whole_head(lines, at):
    """Returns the head of an impl or a function as one line, up to the { of what it has."""
    end = next((it for it in range(at, len(lines)) if lines[it].rstrip().endswith("{")), at)
    return " ".join(it.strip() for it in lines[at:end + 1])


def attributes_above(lines, at):
    """Returns the lines of the attributes that stand right above a function's head."""
    begin = at
    while begin and lines[begin - 1].strip() and not lines[begin - 1].strip().startswith(("//", "}")):
        if lines[begin - 1].endswith(("{", ";")):
            break
        begin -= 1
    return lines[begin:at]


def begin_of(lines, at, indent):
    """Returns the line on which a function's body begins, below its head and its clauses."""
    for number in range(at, len(lines)):
        line = lines[number]
        if line == f"{indent}{{" or line.endswith("{") and (number == at or line.startswith(f"{indent})")):
            return number + 1
    return len(lines)


def end_of(lines, at, indent):
    """Returns the number of the line that ends what begins at a line, counted from one."""
    ends = (f"{indent}}}", f"{indent}{{}}")
    return next((number + 1 for number in range(at + 1, len(lines)) if lines[number] in ends), len(lines))


def functions_of(file, text, homes):
    """Gives the functions of modules and impls. A trait's are left out, which its impls share, and so are those that
    constants may call, which other proofs may compute."""
    lines = text.split("\n")
    around = [(module_of(file), len(lines))]
    at = 0
    while at < len(lines):
        around = [(path, last) for path, last in around if at < last]
        inside = around[-1][0]
        found = HEAD.fullmatch(lines[at])
        if found and not lines[at].endswith((";", "{}")):
            indent, words, kind, rest = found.groups()
            last = end_of(lines, at, indent)
            if kind == "mod":
                around.append(([*inside, last_name(rest)], last))
            elif kind == "impl":
                around.append((path_of_impl(whole_head(lines, at).partition("impl")[2], inside, homes), last))
            else:
                if kind == "fn" and "const" not in words:
                    path = "::".join([*inside, re.match(r" (\w+)", rest)[1]])
                    attributes = attributes_above(lines, at)
                    cycle = CYCLE.search("\n".join(attributes))
                    first, begins = at + 1 - len(attributes), begin_of(lines, at, indent) + 1
                    yield Function(path, cycle and cycle[1], file, first, begins, last)
                at = last - 1
        at += 1


def function_at(crate, file, line, text):
    """Returns the function of a crate whose body has a line."""
    if not file.startswith("src/"):
        return None
    return next((it for it in functions_of(file, text, homes_of(crate)) if it.begins <= line <= it.last), None)


def is_import(line, text):
    """Tells whether a line imports a name, which by itself changes no function."""
    return bool(re.match(r"\s*(pub(\([^)]*\))? )?use ", text.split("\n")[line - 1]))
