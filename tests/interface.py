"""The interface for C as the Rattle source has it: the structs of repr(C) and the exported functions, written as C or as Rust."""

import glob
import os
import re

TOP = os.path.dirname(os.path.dirname(os.path.abspath(__file__)))

# What a struct of the Rattle source is called in the header.
NAMES = {
    "units::Range": "lg_range",
    "list_land::ListLand": "lg_list_land",
    "list_land::Opened": "lg_list_opened",
    "list_land::Changed": "lg_list_changed",
    "list_land::Found": "lg_list_found",
    "block_land::BlockLand": "lg_block_land",
    "block_land::Opened": "lg_block_opened",
    "block_land::Changed": "lg_block_changed",
    "block_land::Found": "lg_block_found",
    "flush::Flushed": "lg_flushed",
    "pair::Pair": "lg_pair",
    "pair::Changed": "lg_pair_changed",
    "pair::Found": "lg_pair_found",
}

# Structs that have no name in the header: a field of one stands there as that struct's own fields, in its place.
FLAT = {"units::LowWater"}

# What the header calls the length of a slice.
LENGTHS = {"words": "n", "nodes": "m"}

USE = re.compile(r"^use (\w+)::(?:(\w+)|\{([^{}]*)\});", re.M)
STRUCT = re.compile(r"#\[repr\(C\)\]\s*(?:#\[derive\([^()]*\)\]\s*)?pub struct (\w+)(?:\((\w+)\);|\s*\{([^{}]*)\})")
FUNCTION = re.compile(r'#\[unsafe\(no_mangle\)\]\s*pub extern "C" fn (\w+)\(([^()]*)\)\s*->\s*(\w+)')


class Unreadable(Exception):
    pass


class Interface:
    """Structs: name in the header to [(field, type)]. Functions: name to (result, [(parameter, type)]).

    A type is 'number', a name of the header, or for a parameter also ('slice', writable) or ('pointer', name)."""

    def __init__(self):
        self.structs, self.functions = {}, {}
        self.kinds = set()
        self.fields, self.scopes = {}, {}
        sources = [source(place) for place in sorted(glob.glob(f"{TOP}/crates/*/src/**/*.rt", recursive=True))]
        for crate, text, scope in sources:
            self.collect_structs(crate, text, scope)
        missing = sorted({*NAMES, *FLAT} - set(self.fields))
        if missing:
            raise Unreadable(f"the Rattle source has no struct {', '.join(missing)}")
        for struct, name in NAMES.items():
            self.structs[name] = self.written(struct)
        for _, text, scope in sources:
            self.collect_functions(text, scope)

    def collect_structs(self, crate, text, scope):
        found = STRUCT.findall(text)
        if len(found) != text.count("repr("):
            raise Unreadable(f"a struct of {crate} that is not understood")
        for name, number, fields in found:
            if number == "u64":
                self.kinds.add(f"{crate}::{name}")
            elif number or f"{crate}::{name}" not in {*NAMES, *FLAT}:
                raise Unreadable(f"no struct of the header stands for {crate}::{name}")
            else:
                self.fields[f"{crate}::{name}"] = pairs(fields.replace("pub ", ""))
                self.scopes[f"{crate}::{name}"] = scope

    def written(self, struct):
        """The fields of a struct as the header has them."""
        scope, rows = self.scopes[struct], []
        for field, kind in self.fields[struct]:
            whole = scope.get(kind, kind)
            if whole in FLAT:
                rows += [(inner, self.plain(its, self.scopes[whole])) for inner, its in self.fields[whole]]
            else:
                rows.append((field, self.plain(kind, scope)))
        return rows

    def collect_functions(self, text, scope):
        found = FUNCTION.findall(text)
        if not len(found) == text.count('extern "C"') == text.count("no_mangle"):
            raise Unreadable("an exported function that is not understood")
        for name, parameters, result in found:
            parameters = [(parameter, self.lent(kind, scope)) for parameter, kind in pairs(parameters)]
            self.functions[name] = (self.plain(result, scope), parameters)

    def plain(self, kind, scope):
        """A number or a struct, by value."""
        whole = scope.get(kind, kind)
        if whole == "u64" or whole in self.kinds:
            return "number"
        if whole in FLAT:
            raise Unreadable(f"{whole} is written flat, which only a field of a struct of the header can be")
        if whole not in NAMES:
            raise Unreadable(f"the type {kind}")
        return NAMES[whole]

    def lent(self, kind, scope):
        """What a parameter may be."""
        if kind in ("&[u64]", "&mut [u64]"):
            return ("slice", kind.startswith("&mut"))
        if kind.startswith("&mut "):
            return ("pointer", self.plain(kind[5:], scope))
        return self.plain(kind, scope)

    def size(self, kind):
        """In bytes: every struct is a row of 8-byte numbers."""
        return 8 if kind == "number" else sum(self.size(inner) for _, inner in self.structs[kind])

    def offsets(self, struct):
        """Each field with its type and its offset."""
        at, rows = 0, []
        for field, kind in self.structs[struct]:
            rows.append((field, kind, at))
            at += self.size(kind)
        return rows


def source(place):
    """A file's crate, its text without comments, and the structs that its names stand for."""
    crate = os.path.relpath(place, TOP).split(os.sep)[1]
    with open(place, encoding="utf-8") as file:
        text = re.sub(r"//[^\n]*", "", file.read())
    scope = {}
    for owner, one, several in USE.findall(text):
        for name in [one] if one else re.findall(r"\w+", several):
            scope[name] = f"{crate if owner == 'crate' else owner}::{name}"
    scope.update({name: f"{crate}::{name}" for name, *_ in STRUCT.findall(text)})
    return crate, text, scope


def pairs(text):
    """'name: type' parts between commas."""
    parts = [part.strip() for part in text.split(",") if part.strip()]
    return [tuple(part.split(": ", 1)) for part in parts]


def c_type(kind):
    return "uint64_t" if kind == "number" else kind


def c_parameters(parameters):
    """As the header writes them, with their names."""
    written = []
    for name, kind in parameters:
        if kind[0] == "slice":
            written += [f"{'' if kind[1] else 'const '}uint64_t *{name}", f"size_t {LENGTHS[name]}"]
        elif kind[0] == "pointer":
            written.append(f"{c_type(kind[1])} *{name}")
        else:
            written.append(f"{c_type(kind)} {name}")
    return written or ["void"]


def rust_type(kind):
    return "u64" if kind == "number" else kind


def rust_parameters(parameters):
    """As the crate for Rust writes them, with their names."""
    written = []
    for name, kind in parameters:
        if kind[0] == "slice":
            written += [f"{name}: *{'mut' if kind[1] else 'const'} u64", f"{LENGTHS[name]}: usize"]
        elif kind[0] == "pointer":
            written.append(f"{name}: *mut {rust_type(kind[1])}")
        else:
            written.append(f"{name}: {rust_type(kind)}")
    return written
