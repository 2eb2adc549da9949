"""Which function of a `.rt` file an edit is in. It relies on the layout of `rt fmt`: a function ends at a `}` that is indented as its `fn` is."""

import re
from dataclasses import dataclass

FN = re.compile(r"^(\s*)(?:pub(?:\([a-z ]+\))? )?(?:(?:final|const|unsafe|extern \"C\") )*fn (\w+)")
CYCLE = re.compile(r"^\s*#\[cycle\((\w+)\)\]")
IMPL = re.compile(r"^\s*(?:unsafe )?impl\b")
CLAUSE = re.compile(r"^\s*(requires|ensures|ghost)\b")


@dataclass(frozen=True)
class Function:
    file: str
    name: str
    # The first line of its attributes and comments, of its body, and its last line, from 1.
    begins: int
    body: int
    ends: int
    cycle: str
    # The type and the trait of its `impl`, if it is in one.
    type: str
    trait: str

    @property
    def module(self):
        """The path of its module, as the check writes it behind the name of the crate."""
        path = self.file.removeprefix("src/").removesuffix(".rt").removesuffix("/mod").replace("/", "::")
        return "" if path in ("lib", "main") else path

    def named(self, paths):
        """Returns the paths by which the check can mean this function, of those that it prints: `module::name`, `module::Type::name`, where the module is that of
        the type, and `module::TypeTrait::name`. They are without the name of the crate."""
        found = []
        for path in paths:
            owner, _, name = path.rpartition("::")
            module, _, last = owner.rpartition("::")
            last = last.split("+")[0]
            if name != self.name:
                continue
            if not self.type:
                found += [path] * (owner == self.module)
            elif self.is_owner(last):
                found.append((module == self.module, path))
        if self.type:
            own = [path for is_own, path in found if is_own]
            return own or [path for _, path in found]
        return found


    def is_owner(self, name):
        """Whether the check means the function's type by this name, or its `impl` of a trait: as `Any`, where the type is a parameter of one letter."""
        type = "Any" if re.fullmatch(r"[A-Z]", self.type) else self.type[:1].upper() + self.type[1:]
        rest = name.removeprefix(type)
        return name == type or bool(self.trait) and rest != name and rest[:1].isupper() and self.trait in rest


def owner_of(line):
    """Returns the type and the trait of an `impl` header, without their parameters and paths."""
    text = line.strip()
    previous = None
    while previous != text:
        previous, text = text, re.sub(r"<[^<>]*>", "", text)
    text = re.sub(r"^(unsafe )?impl\s*", "", text).split("{")[0].split(" where ")[0].strip()
    trait, _, of = text.rpartition(" for ")
    last = lambda path: re.sub(r"\W", "", path.strip().rpartition("::")[2])
    return last(of), last(trait)


def functions_of(file, text):
    """Returns the functions of a file that have a body."""
    found, lines, owner, owner_ends = [], text.splitlines(), ("", ""), 0
    for number, line in enumerate(lines, 1):
        if IMPL.match(line):
            indent = len(line) - len(line.lstrip())
            owner, owner_ends = owner_of(line), end_of(lines, number, " " * indent)
        head = FN.match(line)
        if not head:
            continue
        indent, name = head[1], head[2]
        ends = number if line.rstrip().endswith("}") else end_of(lines, number, indent)
        body = body_of(lines, number, ends, indent)
        if body is None:
            continue
        if lines[body - 1].strip() == "{}":
            ends = body
        begins, cycle = number, ""
        while begins > 1 and re.match(rf"{indent}(#\[|//)", lines[begins - 2]):
            begins -= 1
            of_cycle = CYCLE.match(lines[begins - 1])
            cycle = of_cycle[1] if of_cycle else cycle
        found.append(Function(file, name, begins, body, ends, cycle, *(owner if number <= owner_ends else ("", ""))))
    return found


def end_of(lines, number, indent):
    """Returns the line that closes what begins at a line, by its indentation."""
    for at in range(number, len(lines)):
        if lines[at].rstrip() in (f"{indent}}}", f"{indent}}},", f"{indent}}};"):
            return at + 1
        if FN.match(lines[at]) and lines[at].startswith(f"{indent}fn"):
            return at
    return len(lines)


def body_of(lines, number, ends, indent):
    """Returns the line in which a function's body begins, or None where it has none. Behind clauses its brace has a line of its own."""
    has_clauses = False
    for at in range(number, ends + 1):
        line = lines[at - 1].rstrip()
        has_clauses = has_clauses or bool(CLAUSE.match(line))
        if line == f"{indent}{{" or not has_clauses and (line.endswith("{") or at == number == ends and line.endswith("}")) or line == f"{indent}{{}}":
            return at
        if line.endswith(";") and not has_clauses:
            return None
    return None


def at_line(functions, line):
    """Returns the function whose body has the line, if there is one."""
    return next((it for it in functions if it.body <= line <= it.ends), None)
