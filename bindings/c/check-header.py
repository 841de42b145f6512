#!/usr/bin/env python3
"""Checks that nugwier.h says what the sources of the crate elf_c say.

Reads the `#[repr(C)]` structs and the exports of crates/elf_c/src/*.rt, and writes to standard output a C file that
compiles (as C and as C++) exactly if each struct of the header has the fields, the sizes and the offsets of the Rattle
struct, each function the parameters and the result of the export, and each constant of a fault its number. It also
fails if the header declares a function, a struct or a constant of a fault that the sources do not have, or leaves one
out, also in the namespace of C++.

usage: check-header.py CRATE-SRC-FOLDER HEADER > checks.c
"""
import re
import sys
from pathlib import Path

NUMBERS = {
    "bool": "bool", "u8": "uint8_t", "u16": "uint16_t", "u32": "uint32_t", "u64": "uint64_t", "usize": "size_t",
    "i8": "int8_t", "i16": "int16_t", "i32": "int32_t", "i64": "int64_t", "isize": "ptrdiff_t",
}
SIZES = {
    "bool": 1, "u8": 1, "u16": 2, "u32": 4, "u64": 8, "usize": 8, "i8": 1, "i16": 2, "i32": 4, "i64": 8, "isize": 8,
}


def fail(text):
    sys.exit(f"check-header.py: {text}")


def c_name(rattle):
    """NugwierAbiTag is nugwier_abi_tag."""
    return re.sub(r"(?<!^)([A-Z])", r"_\1", rattle).lower()


def base(type_text):
    return re.sub(r"<[^>]*>", "", type_text).strip()


def split_top(text):
    parts, depth, current = [], 0, ""
    for character in text:
        if character in "<([{":
            depth += 1
        elif character in ">)]}":
            depth -= 1
        if character == "," and depth == 0:
            parts.append(current)
            current = ""
        else:
            current += character
    parts.append(current)
    return [part.strip() for part in parts if part.strip()]


def structs_in(source):
    found = {}
    pattern = r"#\[repr\(C\)\]\s*(?:#\[[^\]]*\]\s*)*pub struct (\w+)(?:<[^>]*>)?\s*\{(.*?)\n\}"
    for name, body in re.findall(pattern, source, re.S):
        body = re.sub(r"//[^\n]*", "", body)
        fields = []
        for part in split_top(body):
            field = re.fullmatch(r"pub (\w+)\s*:\s*(.+)", part, re.S)
            if not field:
                fail(f"struct {name}: a field that is not understood: {part}")
            fields.append((field.group(1), field.group(2).strip()))
        found[name] = fields
    return found


def exports_in(source):
    found = {}
    pattern = r"#\[unsafe\(no_mangle\)\]\s*(?:#\[[^\]]*\]\s*)*pub extern \"C\" fn (\w+)(?:<[^>]*>)?\s*\("
    for match in re.finditer(pattern, source):
        depth, end = 1, match.end()
        while depth:
            depth += {"(": 1, ")": -1}.get(source[end], 0)
            end += 1
        parameters = []
        for part in split_top(source[match.end():end - 1]):
            name, kind = part.split(":", 1)
            parameters.append((name.strip(), kind.strip()))
        result = re.match(r"\s*->\s*([\w<>'_]+)", source[end:])
        found[match.group(1)] = (parameters, result.group(1) if result else None)
    return found


def constants_in(source):
    """The kinds and the parts of faults: NO_NAMES is NUGWIER_FAULT_NO_NAMES, PART_FILE is NUGWIER_PART_FILE."""
    found = re.findall(r"^pub const (\w+): u32 = (\d+);", source, re.M)
    is_part = re.compile(r"PART_(?!OF_)").match
    return {("NUGWIER_" if is_part(name) else "NUGWIER_FAULT_") + name: int(value) for name, value in found}


def slice_in(kind):
    """What a field holds that is a slice."""
    found = re.fullmatch(r"&'?\w*\s*\[(.+)\]", kind)
    return found and found.group(1)


def c_fields(fields):
    """The C fields of a Rattle struct: a slice is a pointer and a length."""
    for name, kind in fields:
        slice_of = slice_in(kind)
        if slice_of:
            yield name, f"const {NUMBERS.get(slice_of) or 'struct ' + c_name(base(slice_of))} *"
            yield name + "_len", "size_t"
        elif kind in NUMBERS:
            yield name, NUMBERS[kind]
        else:
            yield name, "struct " + c_name(base(kind))


def c_parameter(kind):
    kind = re.sub(r"'\w+\s*", "", kind).replace("<>", "")
    slice_of = re.fullmatch(r"&(mut )?\[(.+)\]", kind)
    if slice_of:
        element = NUMBERS.get(slice_of.group(2)) or "struct " + c_name(base(slice_of.group(2)))
        return [("" if slice_of.group(1) else "const ") + element + " *", "size_t"]
    reference = re.fullmatch(r"&(mut )?(.+)", kind)
    if reference:
        target = NUMBERS.get(reference.group(2)) or "struct " + c_name(base(reference.group(2)))
        return [("" if reference.group(1) else "const ") + target + " *"]
    return [NUMBERS.get(kind) or "struct " + c_name(base(kind))]


def layout(name, structs):
    """The size, the alignment and the offsets of a struct where a pointer and a size have eight bytes."""
    offset, greatest, offsets = 0, 1, []
    for field, kind in structs[name]:
        if slice_in(kind):
            parts = [(field, 8, 8), (field + "_len", 8, 8)]
        elif kind in SIZES:
            parts = [(field, SIZES[kind], SIZES[kind])]
        else:
            size, align, _ = layout(base(kind), structs)
            parts = [(field, size, align)]
        for part, size, align in parts:
            offset = (offset + align - 1) // align * align
            offsets.append((part, offset))
            offset += size
            greatest = max(greatest, align)
    return (offset + greatest - 1) // greatest * greatest, greatest, offsets


def main():
    if len(sys.argv) != 3:
        fail("usage: check-header.py CRATE-SRC-FOLDER HEADER")
    source = "\n".join(path.read_text() for path in sorted(Path(sys.argv[1]).glob("**/*.rt")))
    header = re.sub(r"/\*.*?\*/", "", Path(sys.argv[2]).read_text(), flags=re.S)
    structs, exports = structs_in(source), exports_in(source)
    if not structs or not exports:
        fail("no structs or no exports in the sources")

    in_header = set(re.findall(r"^struct (\w+) \{", header, re.M))
    wanted = {c_name(name) for name in structs}
    if in_header != wanted:
        fail(f"structs only in the header: {sorted(in_header - wanted)}, "
             f"only in the sources: {sorted(wanted - in_header)}")
    declared = set(re.findall(r"\b(nugwier_\w+)\s*\(", header))
    if declared != set(exports):
        fail(f"functions only in the header: {sorted(declared - set(exports))}, "
             f"only in the sources: {sorted(set(exports) - declared)}")
    constants = constants_in(source)
    enumerators = set(re.findall(r"\bNUGWIER_(?:FAULT|PART)_\w+(?= =)", header))
    if enumerators != set(constants):
        fail(f"constants only in the header: {sorted(enumerators - set(constants))}, "
             f"only in the sources: {sorted(set(constants) - enumerators)}")
    for name, fields in structs.items():
        body = re.search(r"^struct %s \{(.*?)^\};" % c_name(name), header, re.M | re.S).group(1)
        count = len([line for line in body.split(";") if line.strip()])
        expected = len(list(c_fields(fields)))
        if count != expected:
            fail(f"struct {c_name(name)} has {count} fields in the header, {expected} in the sources")

    out = ['#include "nugwier.h"', "", "#ifdef __cplusplus", "#include <type_traits>",
           "#define CHECK(fact) static_assert(fact, #fact)", "#else",
           "#define CHECK(fact) _Static_assert(fact, #fact)", "#endif", ""]
    out += [f"CHECK({name} == {value});" for name, value in constants.items()]
    for name in structs:
        size, align, offsets = layout(name, structs)
        tag = "struct " + c_name(name)
        out.append(f"CHECK(sizeof({tag}) == {size});")
        for field, offset in offsets:
            out.append(f"CHECK(offsetof({tag}, {field}) == {offset});")
        for field, kind in c_fields(structs[name]):
            # a pointer to a field of another type is an error
            out.append(f"static inline {kind} {'' if kind.endswith('*') else ''}const *field_of_{c_name(name)}_{field}"
                       f"({tag} *one) {{ return &one->{field}; }}")
    for name, (parameters, result) in exports.items():
        kinds = [part for _, kind in parameters for part in c_parameter(kind)]
        returned = "void" if result is None else c_parameter(result)[0]
        # a declaration of another type is an error
        out.append(f'{returned} {name}({", ".join(kinds) or "void"});')
    aliases = [f"CHECK((std::is_same<nugwier::{c_name(name)[8:]}, struct {c_name(name)}>::value));" for name in structs]
    text = "\n".join(out)
    opening, closing = "#ifdef __cplusplus\nextern \"C\" {\n#endif", "#ifdef __cplusplus\n}\n#endif"
    print(f"{text.split('CHECK(sizeof', 1)[0]}{opening}\nCHECK(sizeof{text.split('CHECK(sizeof', 1)[1]}\n{closing}")
    print("\n".join(["#ifdef __cplusplus", *aliases, "#endif"]))
    print(f"check-header.py: {len(structs)} structs, {len(exports)} functions, "
          f"{len(constants)} constants", file=sys.stderr)


main()
