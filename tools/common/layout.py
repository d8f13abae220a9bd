"""How `rt fmt` lays out the expressions that derived code is made of: calls, tuples and struct literals, on one line or broken."""
import dataclasses
import re

# the most columns of a line, and of one that imports several names
WIDTH, IMPORT = 100, 98
# the most columns between the brackets of a call or a tuple on one line, between the braces of a struct literal, of calls of methods, and of a short argument
CALL, LITERAL, CHAIN, SHORT = 60, 18, 60, 10


@dataclasses.dataclass(frozen=True)
class Call:
    """A call with its arguments; without a name a tuple. `tail` stands behind it, as a question mark."""

    name: str
    parts: tuple
    tail: str = ""


@dataclasses.dataclass(frozen=True)
class Literal:
    """A struct literal, or the pattern of one."""

    name: str
    parts: tuple
    tail: str = ""


@dataclasses.dataclass(frozen=True)
class Chain:
    """A value, then fields of it or calls of methods; in front of it the name of a field of a struct literal."""

    parts: tuple
    name: str = ""


def flat(it):
    """It on one line."""
    if isinstance(it, str):
        return it
    if isinstance(it, Chain):
        return it.name + ".".join(it.parts)
    inner = ", ".join(flat(part) for part in it.parts)
    return f"{it.name}({inner}){it.tail}" if isinstance(it, Call) else f"{it.name} {{ {inner} }}{it.tail}"


def _is_narrow(it):
    """Whether neither it nor what stands in it is too wide for one line, wherever that begins."""
    if isinstance(it, str):
        return True
    if isinstance(it, Chain):
        return len(flat(it)) - len(it.name) <= CHAIN
    inner = len(", ".join(flat(part) for part in it.parts))
    return inner <= (CALL if isinstance(it, Call) else LITERAL) and all(_is_narrow(part) for part in it.parts)


def laid(it, indent, before, after):
    """It, behind `before` columns of a line that is indented by `indent`, and in front of `after` columns."""
    if isinstance(it, str) or _is_narrow(it) and before + len(flat(it)) + after <= WIDTH:
        return flat(it)
    if isinstance(it, Chain):
        # at the begin of a line a short value has its first field beside it
        count = 2 if before == indent and not it.name and len(it.parts[0]) <= 4 else 1
        return f"\n{' ' * (indent + 4)}.".join([it.name + ".".join(it.parts[:count]), *it.parts[count:]])
    if isinstance(it, Call) and len(it.parts) == 1 and not isinstance(it.parts[0], str):
        inner = laid(it.parts[0], indent, before + len(it.name) + 1, after + len(it.tail) + 1)
        if before + len(it.name) + 1 + len(inner.partition("\n")[0]) <= WIDTH:
            return f"{it.name}({inner}){it.tail}"
    open_, close = ("(", ")") if isinstance(it, Call) else (" {", "}")
    inner = indent + 4
    if "::<" in it.name and before + len(it.name) >= WIDTH:
        function, _, kind = it.name[:-1].partition("::<")
        return f"{function}::<\n{' ' * inner}{kind},\n{' ' * indent}{laid(Call('>', it.parts, it.tail), indent, indent, after)}"
    if isinstance(it, Call) and all(isinstance(part, str) and len(part) <= SHORT for part in it.parts):
        lines = [", ".join(it.parts) + ","]
    else:
        lines = [laid(part, inner, inner, 1) + "," for part in it.parts]
    return "\n".join([it.name + open_, *(" " * inner + line for line in lines), " " * indent + close + it.tail])


def statement(start, it, indent=8, end=";"):
    """A line that begins with `start`, as `let x = `, and ends with `end`; indented."""
    return " " * indent + start + laid(it, indent, indent + len(start), len(end)) + end


def signature(head, end=" {"):
    """The head of a method: its parameters each on a line where it is too long for one."""
    line = f"    fn {head}{end}"
    if len(line) + 2 - len(end) <= WIDTH:
        return line
    name, parameters, answer = re.fullmatch(r"(.*?)\((.*)\)( -> .*)", head).groups()
    return "\n".join([f"    fn {name}(", *(f"        {it}," for it in parameters.split(", ")), f"    ){answer}{end}"])


def arm(pattern, it, indent):
    """An arm of a match: on one line, or in braces where it has one of its own, or broken."""
    begin = f"{' ' * indent}{pattern} =>"
    whole, alone = f"{begin} {laid(it, indent, len(begin) + 1, 1)},", statement("", it, indent + 4, "")
    if "\n" not in whole and len(whole) <= WIDTH:
        return whole
    if "\n" not in alone and len(alone) <= WIDTH:
        return f"{begin} {{\n{alone}\n{' ' * indent}}}"
    return whole if len(whole.partition("\n")[0]) <= WIDTH else f"{begin}\n{alone},"


def _in_order(name):
    """Numbers in names are compared as numbers, and `_` comes before letters."""
    return [int(part) if part.isdigit() else part.replace("_", " ") for part in re.split(r"(\d+)", name)]


def imported(path, names):
    """A line that imports names, or several."""
    names = sorted(set(names), key=_in_order)
    line = f"use {path}::{names[0]};" if len(names) == 1 else f"use {path}::{{{', '.join(names)}}};"
    if len(line) <= IMPORT:
        return line
    rows = [f"    {', '.join(names)},"]
    if len(rows[0]) > WIDTH:
        rows = ["   "]
        for name in names:
            if len(rows[-1]) + len(name) + 2 >= WIDTH:
                rows.append("   ")
            rows[-1] += f" {name},"
    return "\n".join([f"use {path}::{{", *rows, "};"])
