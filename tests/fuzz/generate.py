"""Texts that follow the grammars: request lines, policies with one statement or update line on each line, scripts."""
from random import Random
from typing import List, Sequence

from fuzz.vocabulary import Attribute, Valued, attributes, value

OPERATORS = ["=", ":=", "+=", "+=", "+=", "^=", "-=", "==", "!*"]
RELATIONS = ["==", "!=", "<", "<=", ">", ">="]
CODES = ["ok", "noop", "updated", "fail", "reject"]
LISTS = ["request", "reply", "control"]
MOVES = ["forward"] * 4 + ["back"] * 2 + ["start", "end", "show"]


def request(rng: Random, pairs: Sequence[Valued]) -> bytes:
    """Lines of pairs, some of them with a comma or a comment."""
    text = b""
    for pair in pairs:
        equals = rng.choice([b" = ", b"=", b"\t=  "])
        end = rng.choice([b"\n", b"\n", b", ", b",\n", b"  # noted\n"])
        text += pair.attribute.name.encode() + equals + pair.text + end
    return text + b"\n" * (not text.endswith(b"\n"))


def literal(rng: Random, attribute: Attribute, percent: str) -> str:
    """A value's text in a policy, where `%` and `$` are no octets of a word, and `%` in quotes is spelled otherwise."""
    text = value(rng, attribute).text.decode("latin-1")
    if "%" not in text and "$" not in text:
        return text
    return (text if text.startswith('"') else f'"{text}"').replace("%", percent)


def source(rng: Random, attribute: Attribute) -> str:
    """What an update line takes its value from: a literal, another instance, or an expansion."""
    drawn = rng.random()
    if drawn < 0.2:
        same = [it for it in attributes() if it.kind == attribute.kind]
        return f"&{rng.choice(['', 'reply:', 'control:'])}{rng.choice(same).name}"
    if drawn < 0.35 and attribute.kind == "string":
        return f'"{rng.choice(["x ", "", "%%"])}%{{{rng.choice(["", "reply:"])}{rng.choice(attributes()).name}}}"'
    return literal(rng, attribute, "%%")


def update_line(rng: Random) -> str:
    attribute = rng.choice(attributes()[:12] if rng.random() < 0.7 else attributes())
    operator = rng.choice(OPERATORS)
    target = rng.choice(["", "", "", "control:", "request:", "reply:"]) + attribute.name
    return f"{target} {operator} {'ANY' if operator == '!*' else source(rng, attribute)}"


def condition(rng: Random, depth: int = 2) -> str:
    """A condition; what compares an attribute has a value of its type."""
    if depth and rng.random() < 0.4:
        joint = rng.choice([" && ", " || "])
        return joint.join(f"({condition(rng, depth - 1)})" for _ in range(2))
    if rng.random() < 0.2:
        return "!" + condition(rng, 0)
    if rng.random() < 0.3:
        return rng.choice(CODES)
    attribute = rng.choice(attributes())
    name = f"&{rng.choice(['', 'reply:'])}{attribute.name}"
    if rng.random() < 0.4:
        return name
    return f"{name} {rng.choice(RELATIONS)} {literal(rng, attribute, 'x')}"


def update(rng: Random, indent: str) -> List[str]:
    lines = [f"{indent}\t{update_line(rng)}" for _ in range(rng.randint(1, 4))]
    return [f"{indent}update {rng.choice(LISTS + ['reply'] * 3)} {{", *lines, f"{indent}}}"]


def statement(rng: Random, depth: int, indent: str) -> List[str]:
    """The lines of a statement."""
    drawn = rng.random()
    if depth and drawn < 0.25:
        return [f"{indent}transaction {{", *statements(rng, depth - 1, indent + "\t"), f"{indent}}}"]
    if depth and drawn < 0.45:
        lines = [f"{indent}if ({condition(rng)}) {{", *statements(rng, depth - 1, indent + "\t"), f"{indent}}}"]
        if rng.random() < 0.5:
            lines += [f"{indent}else {{", *statements(rng, depth - 1, indent + "\t"), f"{indent}}}"]
        return lines
    if drawn < 0.6:
        return [indent + rng.choice(CODES)]
    return update(rng, indent)


def statements(rng: Random, depth: int, indent: str = "") -> List[str]:
    return [line for _ in range(rng.randint(1, 4)) for line in statement(rng, depth, indent)]


def policy(rng: Random) -> List[str]:
    """The lines of a policy."""
    return statements(rng, rng.randint(0, 3))


def script(rng: Random, moves: int) -> bytes:
    return b" ".join(rng.choice(MOVES).encode() for _ in range(moves))
