#!/usr/bin/env python3
"""Checks that the documents agree with the sources.

- The fields of each module's settings, of a blend and of each mask: the same keys, in the same order, with the same
  ranges and ties, in the definitions (crates/params/specs), in docs/FORMATS.md and in the JSON Schema.
- Every file of the repository that a document names exists, also each that it links to.
- Each call and each clause of a row of docs/PROOFS.md exists in the sources of its crate, and a row says it in few words.
- Each definition of a row of docs/DEFINITIONS.md exists in the file of its row, and the row begins with the comment that
  stands above it there, where there is one.

.ci/commands.py tries the commands that the documents show. Prints what disagrees, and ends with 1 where anything does.
"""
import json
import re
import sys
from pathlib import Path

TOP = Path(__file__).resolve().parent.parent
SCHEMA = TOP / "docs/schema/script.schema.json"
FORMATS = TOP / "docs/FORMATS.md"
TABLE = TOP / "crates/params/specs/Table.antt"
NAMES = TOP / "crates/params/specs/Names.antt"

wrong = []


def say(text):
    wrong.append(text)


# ---- the rows of the definitions


def field_keys():
    """The key of each field, by the field's name."""
    pairs = re.findall(r'name_of_field fields\.(\w+) = codes "(\w+)"', NAMES.read_text())
    return dict(pairs)


def whole(text):
    """A whole number as the definitions write it: `pos n`, or `negsuc n` for -(n + 1)."""
    kind, digits = text.split()
    return int(digits) if kind == "pos" else -int(digits) - 1


def body_of(name, text):
    """The right side of a definition, by its left side."""
    found = re.search(r"(?m)^" + re.escape(name) + r" =((?:.*\n)(?:[ \t]+.*\n)*)", text)
    return found.group(1) if found else ""


CELL = re.compile(
    r"nodes fields\.(?P<nodes>\w+)"
    r"|flag_cell fields\.(?P<flag>\w+)"
    r"|(?:cell|tied) fields\.(?P<field>\w+) (?P<layout>\w+) \((?P<low>\w+ \d+)\) \((?P<high>\w+ \d+)\)(?: \((?P<tie>\w+) (?P<at>\d+)\))?"
)


def cells_of(body, keys):
    """The fields of a row: key, value, range and tie to an earlier key."""
    cells = []
    for m in CELL.finditer(body):
        if m["nodes"]:
            cells.append((keys[m["nodes"]], "nodes", 0, 1048575, None))
        elif m["flag"]:
            cells.append((keys[m["flag"]], "flag", None, None, None))
        else:
            tie = (m["tie"], int(m["at"])) if m["tie"] else None
            cells.append((keys[m["field"]], m["layout"].lower(), whole(m["low"]), whole(m["high"]), tie))
    return [
        (key, value, low, high, tie and (tie[0], cells[tie[1]][0])) for key, value, low, high, tie in cells
    ]


def defined_rows():
    """Each row of the definitions, by its name: a module with its version, a mask, or the blend."""
    text = TABLE.read_text()
    keys = field_keys()
    rows = {}
    blending = set()
    for found in re.finditer(r'(?m)^module_row modules\.(\w+) = (module_seen|record)', text):
        body = body_of(f"module_row modules.{found[1]}", text)
        name = re.search(r'codes "(\w+)"', body)[1]
        if found[2] == "record":
            newest, blends = int(re.search(r"newest = (\d+)", body)[1]), "blends = true" in body
        else:
            newest, blends = re.search(r'codes "\w+"\) (\d+) (true|false)', body).groups()
            newest, blends = int(newest), blends == "true"
        rows[(name, newest)] = cells_of(body, keys)
        if blends:
            blending.add(name)
    for found in re.finditer(r"(?m)^old_row_of olds\.(\w+?)(\d) =", text):
        rows[(found[1].lower(), int(found[2]))] = cells_of(body_of(f"old_row_of olds.{found[1]}{found[2]}", text), keys)
    for found in re.finditer(r"(?m)^mask_row_of masks\.(\w+) =", text):
        rows[(found[1].lower(), 0)] = cells_of(body_of(f"mask_row_of masks.{found[1]}", text), keys)
    rows[("blend", 0)] = cells_of(body_of("blend_row", text), keys)
    return rows, blending


# ---- the tables of docs/FORMATS.md


def number_in(text):
    return int(text.replace(",", "")) if text else None


def tie_in(text):
    above = re.fullmatch(r"above (?:each of )?`(\w+)`", text)
    if above:
        return ("Above", above[1])
    both = re.fullmatch(r"not 0 where `(\w+)` is 0", text)
    return ("NotBothZero", both[1]) if both else None


def written_rows():
    """Each row of the document's two tables of fields."""
    rows = {}
    row = None
    versions = False
    for line in FORMATS.read_text().splitlines():
        columns = [c.strip() for c in line.strip("|").split("|")] if line.startswith("|") else []
        if columns[:2] == ["Module", "Version"]:
            versions, row = True, None
        elif columns[:2] == ["Of", "Key"]:
            versions, row = False, None
        elif len(columns) == (7 if versions else 6) and not columns[0].startswith("-"):
            if columns[0]:
                row = (columns[0].strip("`"), int(columns[1]) if versions else 0)
                rows[row] = []
            key, value, low, high, tie = columns[2:] if versions else columns[1:]
            if row and key.startswith("`"):
                rows[row].append((key.strip("`"), value, number_in(low), number_in(high), tie_in(tie)))
    return rows


# ---- the JSON Schema


def resolved(part, schema):
    while "$ref" in part:
        part = schema["$defs"][part["$ref"].split("/")[-1]]
    return part


def form_in(part, schema):
    """The value and the range that a part of the schema allows."""
    part = resolved(part, schema)
    if part.get("type") == "boolean":
        return "flag", None, None
    if part.get("type") == "integer":
        return "one", part["minimum"], part["maximum"]
    inner = resolved(part["items"], schema)
    if inner.get("type") == "integer":
        return "three", inner["minimum"], inner["maximum"]
    deep = resolved(inner["items"], schema)
    kind = "nine" if part["maxItems"] == 3 else "nodes"
    return kind, deep["minimum"], deep["maximum"]


def check_schema(name, version, cells, schema):
    defs = schema["$defs"]
    part = defs.get(f"{name}-{version}") or defs.get(name)
    if part is None:
        say(f"{SCHEMA.name}: no definition of {name} {version}")
        return
    keys = [k for k in part["properties"] if k not in ("shape", "mode", "mask")]
    if keys != [c[0] for c in cells]:
        say(f"{SCHEMA.name}: {name} {version} has the keys {keys}")
        return
    for key, value, low, high, _tie in cells:
        if form_in(part["properties"][key], schema) != (value, low, high):
            say(f"{SCHEMA.name}: {name} {version}, {key}: {form_in(part['properties'][key], schema)} for {(value, low, high)}")


def blending_in(schema):
    for rule in schema["$defs"]["item"]["allOf"]:
        if "blend" in rule.get("then", {}).get("properties", {}):
            return set(rule["if"]["properties"]["module"]["enum"])
    return set()


# ---- files that documents name


def pages():
    """The documents of the repository."""
    return [p for folder in ("*.md", "docs/*.md", "examples/*.md", "bench/*.md", "bench/*/*.md") for p in sorted(TOP.glob(folder))]


def check_files():
    for page in pages():
        text = page.read_text()
        for name in re.findall(r"`([\w./-]+\.(?:md|py|sh|json|rt|antt|ppm|pgm|png|edit|txt))`", text):
            places = [TOP / name, TOP / "crates" / name, TOP / "docs" / name, page.parent / name]
            if "/" in name and not any(p.exists() for p in places):
                say(f"{page.name}: no file {name}")
        for link in re.findall(r"\]\(([^)#:]+)(?:#[^)]*)?\)", text):
            if not (page.parent / link).exists():
                say(f"{page.name}: a link to {link}, which is no file")


# ---- the rows of docs/PROOFS.md

PROOFS = TOP / "docs/PROOFS.md"
# A row says what its clause says in so many words at most.
WORDS = 25


def cells_in(line):
    return [c.strip() for c in line.strip().strip("|").split("|")]


def names_in(cell):
    return re.findall(r"`([^`]+)`", cell)


def clauses_of(crate):
    """The names of each function's clauses, by the function: `Type::name`, or `name` alone; "" is a clause without a name.
    What a type keeps at all times is the clause `type` of its name."""
    clauses = {}
    for path in sorted((TOP / "crates" / crate / "src").glob("*.rt")):
        owner, call = "", None
        for line in path.read_text().splitlines():
            block = re.match(r"(?:pub )?(?:impl|trait)\b(?:<.*?>)? *(?:.* for )?(\w+)", line)
            function = re.match(r"\s*(?:pub )?(?:const )?fn (\w+)", line)
            ensures = re.match(r"\s*ensures\*?(?: (\w+))? \{", line)
            if block:
                owner, call = block[1], None
            elif line == "}":
                owner, call = "", None
            elif function:
                call = f"{owner}::{function[1]}" if owner else function[1]
                clauses.setdefault(call, set())
            elif ensures and call:
                clauses[call].add(ensures[1] or "")
            elif re.match(r"\s*ghost invariant =", line) and owner:
                clauses.setdefault(owner, set()).add("type")
    return clauses


def check_proofs():
    count, known, crates = 0, {}, []
    for line in PROOFS.read_text().splitlines():
        if line.startswith("## "):
            crates = [n for n in names_in(line) if (TOP / "crates" / n).is_dir()]
            known = {c: clauses_of(c) for c in crates}
        columns = cells_in(line) if line.startswith("|") else []
        if not crates or len(columns) != 3 or not names_in(columns[0]):
            continue
        count += 1
        calls, wanted, says = columns
        if len(says.split()) > WORDS:
            say(f"{PROOFS.name}: {calls} {wanted}: {len(says.split())} words")
        for call in names_in(calls):
            first, _, rest = call.partition("::")
            crate, at = (first, rest) if rest and first in crates else (crates[0], call)
            found = known[crate].get(at)
            if found is None:
                say(f"{PROOFS.name}: {crate} has no {at}")
                continue
            for name in {"one clause": [""], "type": ["type"]}.get(wanted, names_in(wanted)):
                if name not in found:
                    say(f"{PROOFS.name}: {at} of {crate} has no clause `{name}`")
    named = {n for line in PROOFS.read_text().splitlines() if line.startswith("## ") for n in names_in(line)}
    for line in (TOP / "crates.txt").read_text().splitlines():
        crate = line.split(":")[0]
        if re.match(r"\w", line) and crate not in named | {"devcore", "rows"} and not crate.endswith("_tests"):
            say(f"{PROOFS.name}: nothing of the crate {crate}")
    return count


# ---- the rows of docs/DEFINITIONS.md

DEFINITIONS = TOP / "docs/DEFINITIONS.md"


def definition_files(cell):
    """The files of a row: a name without a folder lies beside the one before it."""
    files, folder = [], None
    for name in names_in(cell):
        path = TOP / "crates" / name if "/" in name else folder / name
        folder = path.parent
        files.append(path)
    return files


def comment_above(text, at):
    """The comment above a definition that begins at a place of a text, as one line. The first lines of a file are of the
    file."""
    lines, comment = text[:at].split("\n")[:-1], []
    while lines and lines[-1].strip().startswith("--"):
        comment.insert(0, lines.pop().strip()[2:].strip())
    return " ".join(comment).rstrip(".").replace("|", "\\|") if lines else ""


def check_definitions():
    count = 0
    for line in DEFINITIONS.read_text().splitlines():
        columns = cells_in(line) if line.startswith("|") else []
        if len(columns) != 3 or not columns[2].startswith("`"):
            continue
        count += 1
        files = definition_files(columns[2])
        text = "\n".join(p.read_text() for p in files if p.exists())
        for path in files:
            if not path.exists():
                say(f"{DEFINITIONS.name}: no file {path.relative_to(TOP)}")
        for name in names_in(columns[0]):
            word = re.escape(name.split()[0])
            at = re.search(rf"(?m)^ *(?:(?:abbrev|unfoldable|record|data|pub) )*{word}(?= |$)", text)
            if at is None:
                say(f"{DEFINITIONS.name}: {columns[2]} has no {name}")
                continue
            comment = comment_above(text, at.start())
            if comment and not (columns[1] + ": ").replace(".: ", ": ").startswith(comment + ": "):
                say(f"{DEFINITIONS.name}: {name} is said to be {columns[1]!r}, and above it stands {comment!r}")
    return count


def main():
    defined, blending = defined_rows()
    written = written_rows()
    schema = json.loads(SCHEMA.read_text())
    for row, cells in defined.items():
        if written.get(row) != cells:
            say(f"{FORMATS.name}: {row[0]} {row[1]}: {written.get(row)} for {cells}")
        if row[0] != "demosaic":
            check_schema(row[0], row[1], cells, schema)
    for row in written:
        if row not in defined:
            say(f"{FORMATS.name}: {row[0]} {row[1]} is no row")
    if blending_in(schema) != blending:
        say(f"{SCHEMA.name}: {blending_in(schema)} blend for {blending}")
    check_files()
    claims = check_proofs()
    words = check_definitions()
    for text in wrong:
        print(text)
    print(f"documents: {len(defined)} rows of fields, {claims} of promises, {words} of definitions, {len(wrong)} disagreements")
    sys.exit(1 if wrong else 0)


if __name__ == "__main__":
    main()
