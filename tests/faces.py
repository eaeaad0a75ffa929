"""Every number and name of the C header, the C table, the Rust crate, the Python module and README, read from each file as it stands, against each
other, against the proved table of crates/refusals, and against the second program's. So are the functions, and the fields of the answers.

Prints what differs; ends with 1 where anything does. `faces.py sentences` prints each refusal's sentence instead, with 7 and column 3 beside it, and
again where the line at fault, 12, is known and makes a difference."""

import ast
import re
import sys
from pathlib import Path

ROOT = Path(__file__).resolve().parent.parent
wrong = []


def text(path):
    return (ROOT / path).read_text()


def compare(what, found, expected):
    if found != expected:
        for key in sorted(set(found) | set(expected), key=str):
            if found.get(key) != expected.get(key):
                wrong.append(f"{what}: {key} is {found.get(key)}, and should be {expected.get(key)}")


def camel(name):
    joined = "".join(word.capitalize() for word in re.split("[ _-]", name))
    return "Itself" if joined == "Self" else joined


def by_camel(pairs):
    return {camel(name): int(number) for name, number in pairs}


def variants(rust):
    return {name: int(number) for name, number in re.findall(r"^    (\w+) = (\d+),$", rust, re.M)}


# The one place
lines = [line.split(" | ") for line in text("bindings/interface.txt").splitlines() if line and not line.startswith("#")]
refusals = [fields[1:] for fields in lines if fields[0] == "refusal"]
version = next(fields[1] for fields in lines if fields[0] == "version")
limits = {fields[1]: int(fields[2]) for fields in lines if fields[0] == "limit"}
texts = {fields[1]: int(fields[2]) for fields in lines if fields[0] == "text"}
numbers = by_camel((name, number) for number, name, *_ in refusals)
names = {int(number): name for number, name, *_ in refusals}
beside = {camel(name): also for _, name, also, *_ in refusals}
sentences = {int(number): sentence for number, *_, sentence in refusals}
if len(names) != len(refusals) or len(numbers) != len(refusals):
    wrong.append("bindings/interface.txt: a number or a name stands twice")

# The proved table
table = text("crates/refusals/src/lib.rt").split("pub enum Refusal {")[1].split("\n}\n")[0]
compare("bindings/interface.txt against crates/refusals", numbers, variants(table))
told = {"nothing": "-", "a_row": "row", "the_nodes": "nodes", "a_line": "line", "a_spot": "spot", "an_index": "index"}
table = re.findall(r"^entry (\w+) = row (\d+) (\w+)$", text("crates/refusals/specs/Table.antt"), re.M)
compare("bindings/interface.txt against crates/refusals/specs/Table.antt", beside, {name: told.get(also, also) for name, _, also in table})

# The header
header = text("include/slotsheet.h")
enums = {name: re.findall(r"SLOTSHEET_(\w+) = (\d+)", body) for name, body in re.findall(r"enum slotsheet_(\w+) \{(.*?)\};", header, re.S)}
compare("include/slotsheet.h, refusals", by_camel(enums["refusal"]), {"Accepted": 0, **numbers})
compare("include/slotsheet.h, texts", {name: int(value) for name, value in enums["text"]}, texts)
compare("include/slotsheet.h, limits", {name: int(value) for name, value in re.findall(r"#define SLOTSHEET_(\w+) (\d+)", header)}, limits)
compare("include/slotsheet.h", {"version": re.search(r'#define SLOTSHEET_VERSION "(.*)"', header)[1]}, {"version": version})

# The C table
rows = re.findall(r'\{(\d+), "(.*?)", "(.*)"\},', text("bindings/c/table.h"))
compare("bindings/c/table.h, names", {int(number): name for number, name, _ in rows}, {0: "ACCEPTED", **names})
unquoted = {int(number): sentence.replace('\\"', '"') for number, _, sentence in rows}
compare("bindings/c/table.h, sentences", unquoted, {0: "accepted", **sentences})

# Rust
rust = text("bindings/rust/src/table.rs")
compare("bindings/rust, refusals", variants(rust), numbers)
constants = {name: int(value.replace("_", "")) for name, value in re.findall(r"pub const (\w+): usize = ([\d_]+);", rust)}
compare("bindings/rust, limits", constants, limits)
rows = re.findall(r'Row \{ refusal: Refusal::(\w+), name: "(.*?)", beside: Beside::(\w+), sentence: "(.*)" \}', rust)
compare("bindings/rust, names", {numbers.get(row[0]): row[1] for row in rows}, names)
compare("bindings/rust, beside", {row[0]: row[2] for row in rows}, {name: "Nothing" if also == "-" else also.capitalize() for name, also in beside.items()})
compare("bindings/rust, sentences", {numbers.get(row[0]): row[3].replace('\\"', '"') for row in rows}, sentences)
compare("bindings/rust", {"version": re.search(r'VERSION: &str = "(.*)"', rust)[1]}, {"version": version})
compare("bindings/rust/Cargo.toml", {"version": re.search(r'^version = "(.*)"', text("bindings/rust/Cargo.toml"), re.M)[1]}, {"version": version})

# Python, read and not run
python = {}
for node in ast.parse(text("bindings/python/slotsheet.py")).body:
    if isinstance(node, ast.Assign) and isinstance(node.targets[0], ast.Name):
        try:
            python[node.targets[0].id] = ast.literal_eval(node.value)
        except ValueError:
            pass
compare("bindings/python, names", {number: row[0] for number, row in python["_TABLE"].items()}, names)
compare("bindings/python, beside", {camel(row[0]): row[1] or "-" for row in python["_TABLE"].values()}, beside)
compare("bindings/python, sentences", {number: row[2] for number, row in python["_TABLE"].items()}, sentences)
compare("bindings/python, limits", {name: python.get(name) for name in limits}, limits)
compare("bindings/python, texts", {name: python.get(f"_{name}") for name in texts}, texts)
compare("bindings/python", {"version": python["VERSION"]}, {"version": version})

# README and the second program, which is written from the papers alone
compare("README.md", {int(number): name for number, name in re.findall(r"^\| (\d+) ([A-Z -]+?) \|", text("README.md"), re.M)}, names)
compare("second", variants(text("second/src/refusal.rs")), numbers)

# Functions: what is proved for C has a declaration, a wrapper of NULL, and a call from Rust and Python.
declared = set(re.findall(r"\bslotsheet_(\w+)\(", re.sub(r"/\*.*?\*/", "", header, flags=re.S)))
own = {"version", "name", "sentence"}
calls = {
    "crates/capi": set(re.findall(r'pub extern "C" fn slotsheet_(\w+)', text("crates/capi/src/lib.rt"))),
    "crates/capi_c": set(re.findall(r'pub extern "C" fn slotsheet_(\w+)', text("crates/capi_c/src/lib.rt"))),
    "bindings/c/slotsheet.c": set(re.findall(r"return slotsheet_proved_(\w+)\(", text("bindings/c/slotsheet.c"))),
    "bindings/rust/src/raw.rs": set(re.findall(r"pub fn slotsheet_(\w+)\(", text("bindings/rust/src/raw.rs"))),
    "bindings/python": set(re.findall(r'^    "(\w+)": \(', text("bindings/python/slotsheet.py"), re.M)) - own,
}
for place, found in calls.items():
    compare(f"{place}, calls", dict.fromkeys(found, "there"), dict.fromkeys(declared - own, "there"))

# Answers: the same fields in the same order.
fields = {name.capitalize(): re.findall(r"(\w+);", re.sub(r"/\*.*?\*/", "", body, flags=re.S))
          for name, body in re.findall(r"struct slotsheet_(\w+) \{(.*?)\};", header, re.S)}
raw = {name: re.findall(r"pub (\w+):", body) for name, body in re.findall(r"pub struct (\w+) \{(.*?)\}", text("bindings/rust/src/raw.rs"), re.S)}
held = {name: re.findall(r'\("(\w+)",', body)
        for name, body in re.findall(r"class _(\w+)\(ctypes.Structure\):\s+_fields_ = \[(.*?)\]\n", text("bindings/python/slotsheet.py"), re.S)}
compare("bindings/rust, answers", raw, fields)
compare("bindings/python, answers", held, fields)

if sys.argv[1:] == ["sentences"]:
    print("0 ACCEPTED: accepted")
    for number, sentence in sentences.items():
        said = sentence.replace("{place}", "7").replace("{column}", "3").replace("{next}", "8")
        for entry in ["the entry on this line", "entry 12"][: 1 + said.count("{entry}")]:
            print(f"{number} {names[number]}: {said.replace('{entry}', entry)}")
    sys.exit(0)

print("\n".join(wrong) or f"{len(numbers)} refusals, {len(limits)} limits and {len(declared)} functions are the same everywhere")
sys.exit(1 if wrong else 0)
