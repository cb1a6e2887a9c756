"""Compares the exports of the crate nutscythe_c with the header: names, and each parameter's width and whether it is a
pointer; that each raw call has its inline call in the header, which gives `p, p != NULL` of each object; the numbers of statuses;
and the fields of structs, by name, order and width.

usage: check_header.py HEADER SOURCE..
"""
import re
import sys

RT = {"u8": 1, "u16": 2, "u32": 4, "u64": 8, "usize": 8, "bool": 1}
C = {"uint8_t": 1, "uint16_t": 2, "uint32_t": 4, "uint64_t": 8, "size_t": 8, "bool": 1}
EXPORT = r"#\[unsafe\(no_mangle\)\]\s*pub extern \"C\" fn (\w+)\((.*?)\)\s*->\s*(\w+)\s*\n"
# A slice of these is octets, which may be as many as there are; of all others it is an object, or none.
OCTETS = "u8"


def split(words):
    """The parameters between commas."""
    return [word.strip() for word in words.split(",") if word.strip()]


def exports(text):
    """By name, the widths of the parameters and of the result: a pointer is 'p', and a slice is a pointer and a length; and
    how many of the slices are objects."""
    found, objects = {}, {}
    for name, params, result in re.findall(EXPORT, text, re.S):
        widths, slices = [], 0
        for param in split(params):
            kind = param.split(":", 1)[1].strip()
            if kind == "Global":
                continue
            of = re.fullmatch(r"&(?:mut )?\[(\w+)\]", kind)
            if of:
                widths += ["p", 8]
                slices += of[1] != OCTETS
            elif kind.startswith("&"):
                sys.exit(f"{name}: {param} is no slice, so that a null would have no status")
            else:
                widths.append(RT[kind])
        found[name], objects[name] = widths + [RT[result]], slices
    return found, objects


def declared(text):
    """Of each raw call of the header the types of its parameters and of its result."""
    found = {}
    for result, name, params in re.findall(r"^(\w+) (nutscythe_raw_\w+)\(([^{]*?)\);", text, re.S | re.M):
        widths = ["p" if "*" in param else C[re.sub(r"const |\s+\w+$", "", param).strip()] for param in split(params)]
        found[name] = widths + [C[result]]
    return found


def inlined(text):
    """Of each inline call over a raw call of its own name, how many objects it tests for null."""
    calls = re.findall(r"^static inline uint32_t nutscythe_(\w+)\(.*?\n?\{(.*?)\}", text, re.S | re.M)
    return {f"nutscythe_raw_{name}": body.count("!= NULL") for name, body in calls if f"nutscythe_raw_{name}(" in body}


def numbers(body, prefix=""):
    """The names of an enum, in small letters with no `_` between words, and their numbers."""
    return {name.removeprefix(prefix).replace("_", "").lower(): int(number) for name, number in re.findall(r"(\w+) = (\d+)", body)}


def statuses(source, header):
    """The statuses of the crate, and those of the header."""
    ours = re.search(r"pub enum Status \{(.*?)\n\}", source, re.S)[1]
    theirs = re.search(r"enum nutscythe_status \{(.*?)\}", header, re.S)[1]
    return numbers(ours), numbers(theirs, "NUTSCYTHE_")


def structs(source):
    """Of each struct that C sees, by its name in C, the names and widths of its fields; a pointer is 'p'."""
    found = {}
    for name, body in re.findall(r"#\[repr\(C\)\]\n(?:#\[[^\n]*\]\n)*pub struct (\w+) \{(.*?)\n\}", source, re.S):
        fields = re.findall(r"^    (?:pub )?(\w+): (?:(\*)mut \w+|\[(\w+); (\d+)\]|(\w+)),", body, re.M)
        found["nutscythe" + re.sub(r"[A-Z]", lambda it: "_" + it[0].lower(), name)] = [
            (field, "p" if star else RT[of or kind] * int(many or 1)) for field, star, of, many, kind in fields if kind != "Global"]
    return found


def declared_structs(header):
    """Of each struct of the header the names and types of its fields."""
    found = {}
    for body, name in re.findall(r"typedef struct \w+ \{(.*?)\} (\w+);", header, re.S):
        fields = re.findall(r"(\w+) (\*?)(\w+)(?:\[(\d+)\])?;", body)
        found[name] = [(field, "p" if star else C[kind] * int(many or 1)) for kind, star, field, many in fields]
    return found


def main():
    """Says what differs, with status 1."""
    source = "\n".join(open(name, encoding="utf-8").read() for name in sys.argv[2:])
    ours, objects = exports(source)
    with open(sys.argv[1], encoding="utf-8") as it:
        header = re.sub(r"/\*.*?\*/", "", it.read(), flags=re.S)
    theirs, inline = declared(header), inlined(header)
    wrong = 0
    for name in sorted({*ours, *theirs, *inline}):
        if ours.get(name) != theirs.get(name):
            print(f"{name}: the crate has {ours.get(name)}, the header {theirs.get(name)}")
            wrong += 1
        elif objects[name] != inline.get(name):
            print(f"{name}: {objects[name]} objects, of which the inline call tests {inline.get(name)}")
            wrong += 1
    for what, one, other in ("statuses", *statuses(source, header)), ("structs", structs(source), declared_structs(header)):
        for name in sorted({*one, *other}):
            if one.get(name) != other.get(name):
                print(f"{what}, {name}: the crate has {one.get(name)}, the header {other.get(name)}")
                wrong += 1
        print(f"{len(one)} {what}")
    print(f"{len(ours)} exports, {wrong} wrong")
    sys.exit(bool(wrong or not ours))


main()
