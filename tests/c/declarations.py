"""What the header declares, what the crates export and what the bench calls, read from their text: functions, structs and enumerators.

A type is written as the header writes it. A slice of Rattle is a pointer and a count; without mut what it points to is const.
"""
import glob
import os
import re

import building

PLAIN = {"u8": "uint8_t", "u16": "uint16_t", "u32": "uint32_t", "u64": "uint64_t", "usize": "size_t", "bool": "bool", "f64": "double",
         "Cents": "uint64_t"}
STRUCTS = {"Book": "claim_tracker_book", "Done": "claim_tracker_done", "Reply": "claim_tracker_reply", "Served": "claim_tracker_served",
           "Transfer": "claim_tracker_transfer_fields", "Claim": "claim_tracker_claim", "Answer": "claim_tracker_answer",
           "TransferReading": "claim_tracker_transfer_reading", "ClaimReading": "claim_tracker_claim_reading",
           "AnswerReading": "claim_tracker_answer_reading", "Cash": "claim_tracker_cash",
           "CashForecast": "claim_tracker_cash_forecast"}
COUNT = "size_t, a count"


# ---- the header

def header_text():
    """The header without comments."""
    with open(building.HEADER, encoding="utf-8") as file:
        return re.sub(r"/\*.*?\*/", " ", file.read(), flags=re.S)


def enumerators():
    """The enumerators of the header by the name of their enum; those of enums without a name, and numbers too large for an enum, under the
    empty name."""
    found = {"": {name: int(value) for name, value in re.findall(r"(?m)^#define (\w+) UINT64_C\((\d+)\)$", header_text())}}
    for name, body in re.findall(r"\benum\s*(\w*)\s*{(.*?)}", header_text(), re.S):
        for word, value in re.findall(r"(\w+)\s*=\s*(\d+)", body):
            found.setdefault(name, {})[word] = int(value)
    return found


def c_declaration(text):
    """The name and the type of one declaration: an array of a declared size has its size in the type."""
    text = " ".join(text.replace("*", " * ").split())
    match = re.fullmatch(r"(?P<type>.*?) (?P<name>\w+)(?:\s*\[(?P<size>\w+)\])?", text)
    size = match["size"]
    if size:
        return match["name"], "%s[%d]" % (match["type"], enumerators()[""].get(size) or int(size))
    return match["name"], match["type"]


def header_structs():
    """The fields of each struct of the header, in order."""
    return {name: [c_declaration(field) for field in filter(str.strip, body.split(";"))]
            for name, body in re.findall(r"\bstruct (\w+)\s*{(.*?)}", header_text(), re.S)}


def with_counts(arguments):
    """Arguments in order, each size_t behind a pointer as its count."""
    made = []
    for argument in arguments:
        is_count = argument[1] == "size_t" and made and made[-1][1].endswith("*")
        made.append((None, COUNT) if is_count else argument)
    return made


def header_functions():
    """Each function of the header: what it returns, and its arguments in order."""
    form = r"^CLAIM_TRACKER_CALL CLAIM_TRACKER_NONNULL\s+([\w ]+?)\s*\b(claim_tracker_\w+)\(([^)]*)\);"
    return {name: (returned, with_counts(map(c_declaration, arguments.split(","))))
            for returned, name, arguments in re.findall(form, header_text(), re.M)}


# ---- the crates

def code_text(*pattern):
    """The code of files of the repository, in Rattle or Rust, without comments."""
    text = ""
    for path in sorted(glob.glob(os.path.join(building.ROOT, *pattern))):
        with open(path, encoding="utf-8") as file:
            text += re.sub(r"//[^\n]*", "", file.read())
    return text


def c_types(name, text):
    """The arguments of the header for one of Rattle."""
    text = " ".join(text.split())
    if slice_ := re.fullmatch(r"&(mut )?\[(\w+)\]", text):
        return [(name, ("" if slice_[1] else "const ") + PLAIN[slice_[2]] + " *"), (None, COUNT)]
    if array := re.fullmatch(r"(&)?\[(\w+); (\d+)\]", text):
        return [(name, "%s%s[%s]" % ("const " if array[1] else "", PLAIN[array[2]], array[3]))]
    if own := re.fullmatch(r"&mut (\w+)", text):
        return [(name, "struct %s *" % STRUCTS[own[1]])]
    return [(name, c_type(text))]


def c_type(text):
    return PLAIN.get(text) or "struct " + STRUCTS[text]


def exports():
    """Each export of the crate tracker_c: what it returns and its arguments, as the header is to have them."""
    found = {}
    form = r'#\[unsafe\(no_mangle\)\]\s*pub extern "C" fn (\w+)\(([^)]*)\)\s*->\s*(\w+)'
    for name, arguments, returned in re.findall(form, code_text("crates", "tracker_c", "src", "*.rt")):
        found[name] = (c_type(returned), [one for argument in arguments_of(arguments) for one in c_types(*argument)])
    return found


def arguments_of(text):
    """The names and types of the arguments of a function, as they are written."""
    return [tuple(map(str.strip, argument.split(":", 1))) for argument in re.split(r",(?![^\[]*\])", text) if argument.strip()]


def exported_structs():
    """The fields of each struct that the exports pass, as the header is to have them."""
    return structs_of(code_text("crates", "*", "src", "*.rt"))


def structs_of(text):
    """The fields of the structs in a text that have C's form and are among those that the exports pass."""
    found = {}
    for name, body in re.findall(r"#\[repr\(C\)\](?:\s*#\[derive\([^)]*\)\])?\s*pub struct (\w+) {(.*?)}", text, re.S):
        if name in STRUCTS:
            fields = re.findall(r"pub (\w+):\s*([^,]+),", body)
            found[STRUCTS[name]] = [c_types("class_" if field == "class" else field, kind)[0] for field, kind in fields]
    return found


# ---- the bench

def rust_type(text):
    """The type of the header for one of Rust's."""
    if pointer := re.fullmatch(r"\*(const|mut) (\w+)", text):
        return ("const " if pointer[1] == "const" else "") + c_type(pointer[2]) + " *"
    return c_type(text)


def bench_functions():
    """Each function of the library that the bench declares: what it returns and its arguments, as the header is to have them."""
    block = re.search(r'unsafe extern "C" {(.*?)\n    }', code_text("bench", "src", "tracker.rs"), re.S)[1]
    return {name: (rust_type(returned), with_counts((word, rust_type(kind)) for word, kind in arguments_of(arguments)))
            for name, arguments, returned in re.findall(r"pub fn (\w+)\(([^)]*)\)\s*->\s*([^;]+);", block)}


def bench_structs():
    """The fields of each struct that the bench passes."""
    return structs_of(code_text("bench", "src", "rules.rs"))
