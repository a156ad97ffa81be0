"""A module for addresses of 64 bits in terms of 32: every value keeps its length and its place. An address stands in eight
bytes of which the upper four are zero: whoever stores one makes them so, and whoever loads one reads the lower four."""
import re

STORE = re.compile(r'  store ptr (?P<value>.+), ptr (?P<place>[^,"]+|@"[^"]*"), align \d+(?:, !.*)?')
PAIR = re.compile(r"  (?P<to>%\S+) = load \{ (?P<one>\w+), (?P<other>\w+) \}, ptr (?P<place>[^,\"]+), align 8(?:, !.*)?")
ADDRESS = re.compile(r"  (?P<to>%\S+) = ptrtoaddr ptr (?P<of>.+) to i64")
PACKED = re.compile(r"@\S+ = private (?:unnamed_addr )?constant <\{ (?P<types>[^}]*) \}> <\{ (?P<values>.*) \}>, align \d+")
# What may stand in a constant: bytes, and an address.
PLACE = r'null|@[\w.]+|@"[^"]*"|getelementptr \(i8, ptr @[\w.]+, i64 \d+\)'
PART = re.compile(rf'\[\d+ x i8\] (?:c"[^"]*"|zeroinitializer)|ptr (?:{PLACE})')


def narrowed(text):
    """Returns a module's text for addresses of 32 bits."""
    return "\n".join(line for n, old in enumerate(text.split("\n")) for line in lines_of(old, n))


def lines_of(line, n):
    """Returns what stands in place of the nth line."""
    if line.startswith("@"):
        return [constant(line)]
    if line.startswith("  store ptr "):
        return [line, *above(STORE.fullmatch(line)["place"], f"%above.{n}")]
    if " = load {" in line and "ptr }" in line:
        return by_parts(PAIR.fullmatch(line), f"%part.{n}")
    if " = ptrtoaddr " in line:
        return as_number(ADDRESS.fullmatch(line), f"%low.{n}")
    if " = alloca ptr" in line:
        return [line.replace("alloca ptr, align 8", "alloca i64, align 8")]
    return [line]


def above(place, name):
    """Returns what makes the four bytes zero above an address that is stored."""
    return [f"  {name} = getelementptr i8, ptr {place}, i64 4", f"  store i32 0, ptr {name}, align 4"]


def as_number(found, name):
    """Returns what makes a number of 64 bits of an address."""
    return [f"  {name} = ptrtoaddr ptr {found['of']} to i32", f"  {found['to']} = zext i32 {name} to i64"]


def by_parts(found, name):
    """Returns what loads a pair whose second part is an address, by its parts: that stands behind eight bytes."""
    pair = f"{{ {found['one']}, ptr }}"
    return [
        f"  {name}.one = load {found['one']}, ptr {found['place']}, align 8",
        f"  {name}.place = getelementptr i8, ptr {found['place']}, i64 8",
        f"  {name}.other = load ptr, ptr {name}.place, align 8",
        f"  {name}.half = insertvalue {pair} poison, {found['one']} {name}.one, 0",
        f"  {found['to']} = insertvalue {pair} {name}.half, ptr {name}.other, 1",
    ]


def constant(line):
    """Returns a constant with four zeros behind each address in it."""
    if not re.search(r"\bptr\b", line):
        return line
    found = PACKED.fullmatch(line)
    parts = PART.findall(found["values"])
    if ", ".join(parts) != found["values"]:
        raise ValueError(f"a constant of another form: {line[:200]}")
    padded = [it for part in parts for it in ([part, "[4 x i8] zeroinitializer"] if part.startswith("ptr ") else [part])]
    types = [re.match(r"\[\d+ x i8\]|ptr", it)[0] for it in padded]
    head = line[: line.index("<{")]
    return f"{head}<{{ {', '.join(types)} }}> <{{ {', '.join(padded)} }}>{line[line.rindex(', align'):]}"
