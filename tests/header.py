#!/usr/bin/env python3
"""Compares include/limbegoru.h and host/limbegoru/src/sys.rs with the Rattle source: python3 tests/header.py, after host/c/build.

Every struct: C, C++ and Rust files are written that state the size, the offset and type of every field as the Rattle source has
them, and compiled. Every function: parameters with their names, and the result. Neither file has a struct or a function that the
Rattle source lacks, or lacks one. The archive exports these functions, and has no memory of its own that could be written.
Besides: a dropped result is warned of, in each of the three languages; the header is refused where the archive does not fit;
host/c/calls.c calls every function on memory and on none; the C in README.md compiles.

The last line is 'N passed, M failed'; the exit status is 0 exactly if M is 0.
"""

import os
import re
import subprocess
import sys
import tempfile

from interface import TOP, Interface, Unreadable, c_parameters, c_type, rust_parameters, rust_type

HEADER = os.path.join(TOP, "include", "limbegoru.h")
RUST = os.path.join(TOP, "host", "limbegoru", "src")
ARCHIVE = os.path.join(TOP, "target", "host", "liblimbegoru.a")

# Functions whose result may be dropped, and one that is none of the archive's.
LOSES_NOTHING = {"lg_version"}
OF_THE_HEADER = {"lg_answer_text"}

C = ["gcc", "-std=c11"]
CPP = ["g++", "-std=c++17", "-x", "c++"]
REFUSED = "liblimbegoru.a is for x86-64 with 64-bit pointers and the System V calling convention"


def read(place):
    with open(place, encoding="utf-8") as file:
        return file.read()


def run(command):
    """The exit status and what was said, in English."""
    english = {**os.environ, "LC_ALL": "C"}
    ran = subprocess.run(command, stdin=subprocess.DEVNULL, capture_output=True, text=True, env=english)
    return ran.returncode, ran.stdout + ran.stderr


def compiled(room, compiler, text):
    """A C or C++ file compiled, every warning an error."""
    place = os.path.join(room, "file.c")
    with open(place, "w", encoding="utf-8") as file:
        file.write(text)
    flags = ["-O1", "-Wall", "-Wextra", "-Werror", f"-I{os.path.dirname(HEADER)}", "-o", os.path.join(room, "file.o")]
    return run([*compiler, *flags, "-c", place])


def compiled_rust(room, text):
    """A crate of the declarations for Rust and this text, every warning an error but that something is not used."""
    modules = "".join(f'#[path = "{RUST}/{name}.rs"]\npub mod {name};\n' for name in ("handle", "sys"))
    place = os.path.join(room, "file.rs")
    with open(place, "w", encoding="utf-8") as file:
        file.write(modules + "use std::mem::{offset_of, size_of};\nuse sys::*;\n" + text)
    flags = ["--edition=2021", "--crate-type=lib", "--emit=metadata", "-Dwarnings", "-Aunused-imports"]
    return run(["rustc", *flags, "--out-dir", room, place])


def layout_in_c(interface):
    """The structs and functions of the Rattle source, stated in C and C++."""
    lines = ["#include <assert.h>", '#include "limbegoru.h"']
    for struct in interface.structs:
        lines.append(f'static_assert(sizeof({struct}) == {interface.size(struct)}, "size of {struct}");')
        for field, kind, at in interface.offsets(struct):
            lines.append(f'static_assert(offsetof({struct}, {field}) == {at}, "{field} of {struct}");')
            lines.append(f"{c_type(kind)} *{field}_of_{struct}({struct} *it) {{ return &it->{field}; }}")
    lines += ["#ifdef __cplusplus", 'extern "C" {', "#endif"]
    for name, (result, parameters) in interface.functions.items():
        lines.append(f"{c_type(result)} {name}({', '.join(c_parameters(parameters))});")
    return "\n".join(lines + ["#ifdef __cplusplus", "}", "#endif", ""])


def layout_in_rust(interface):
    """The same in Rust."""
    lines = []
    for struct in interface.structs:
        lines.append(f'const _: () = assert!(size_of::<{struct}>() == {interface.size(struct)}, "size of {struct}");')
        for field, kind, at in interface.offsets(struct):
            lines.append(f'const _: () = assert!(offset_of!({struct}, {field}) == {at}, "{field} of {struct}");')
            lines.append(f"pub fn {field}_of_{struct}(it: &{struct}) -> &{rust_type(kind)} {{ &it.{field} }}")
    for name, (result, parameters) in interface.functions.items():
        parameters = ", ".join(rust_parameters(parameters))
        lines.append(f'const _: unsafe extern "C" fn({parameters}) -> {rust_type(result)} = {name};')
    return "\n".join(lines)


def layouts(interface, room):
    """What is wrong with the structs, as compiled."""
    in_c = layout_in_c(interface)
    for name, (status, said) in {
        "in C": compiled(room, C, in_c),
        "in C++": compiled(room, CPP, in_c),
        "in Rust": compiled_rust(room, layout_in_rust(interface)),
    }.items():
        yield f"every field {name}", said if status else None


def differences(mine, theirs):
    """The functions that are not declared as the Rattle source says, one to a line; None if there are none."""
    wrong = [name for name in sorted({*mine, *theirs}) if mine.get(name) != theirs.get(name)]
    return "\n".join(f"{name}: {theirs.get(name)} and not {mine.get(name)}" for name in wrong) or None


def strangers(interface, text):
    """The names of the interface that the text lacks, and those that it has beyond it."""
    known = {*interface.structs, *interface.functions}
    has = {*re.findall(r"\blg_\w+", text), *re.findall(r"\bstruct (\w+)", text)} - OF_THE_HEADER
    return ", ".join(sorted(known ^ has)) or None


def declarations(interface):
    """What is wrong with the functions, and with the set of all names."""
    header = re.sub(r"/\*.*?\*/", " ", read(HEADER), flags=re.S)
    found = re.findall(r"(LG_KEEP )?\b(\w+) (lg_\w+)\(([^()]*)\);", " ".join(header.split()))
    theirs = {name: f"{keep}{result} ({parameters})" for keep, result, name, parameters in found}
    mine = {
        name: f"{'' if name in LOSES_NOTHING else 'LG_KEEP '}{c_type(result)} ({', '.join(c_parameters(parameters))})"
        for name, (result, parameters) in interface.functions.items()
    }
    yield "every function of the header", differences(mine, theirs)
    yield "no other name in the header", strangers(interface, header)

    rust = " ".join(re.sub(r"//[^\n]*", "", read(os.path.join(RUST, "sys.rs"))).split())
    found = re.findall(r"pub fn (\w+)\(([^()]*)\) -> (\w+);", rust)
    theirs = {name: f"({parameters}) -> {result}" for name, parameters, result in found}
    mine = {
        name: f"({', '.join(rust_parameters(parameters))}) -> {rust_type(result)}"
        for name, (result, parameters) in interface.functions.items()
    }
    yield "every function of sys.rs", differences(mine, theirs)
    yield "no other name in sys.rs", strangers(interface, rust)


def archive(interface):
    """What is wrong with the names of the archive."""
    status, said = run(["nm", ARCHIVE])
    symbols = [line.split()[-2:] for line in said.split("\n") if re.match(r"[0-9a-f ]+ \w \w+", line)]
    exported = {name for letter, name in symbols if letter.isupper() and letter != "U"}
    wrong = said if status else ", ".join(sorted(exported ^ set(interface.functions)))
    yield "the archive exports every function and nothing else", wrong or None
    kept = [name for letter, name in symbols if letter in "bBcCdDgGsS"]
    yield "the archive has no memory that could be written", ", ".join(kept) or None


def calls_in_c(names, interface, used):
    """A function for each call, in which its result is read or dropped."""
    lines = ['#include "limbegoru.h"']
    for name in names:
        parameters = c_parameters(interface.functions[name][1])
        arguments = ", ".join(parameter.split()[-1].strip("*") for parameter in parameters)
        call = f"return {name}({arguments}).answer;" if used else f"{name}({arguments}); return 0;"
        lines.append(f"uint64_t call_{name}({', '.join(parameters)}) {{ {call} }}")
    return "\n".join(lines) + "\n"


def calls_in_rust(names, interface, used):
    """The same in Rust."""
    lines = []
    for name in names:
        parameters = rust_parameters(interface.functions[name][1])
        arguments = ", ".join(parameter.split(":")[0] for parameter in parameters)
        call = f"{name}({arguments}).answer" if used else f"{name}({arguments}); 0"
        lines.append(f"pub unsafe fn call_{name}({', '.join(parameters)}) -> u64 {{ {call} }}")
    return "\n".join(lines) + "\n"


def drops(interface, room):
    """Whether every dropped result is warned of, and none that is read."""
    names = sorted(set(interface.functions) - LOSES_NOTHING)
    ways = {
        "in C": (lambda text: compiled(room, C, text), calls_in_c, "ignoring return value of"),
        "in C++": (lambda text: compiled(room, CPP, text), calls_in_c, "ignoring return value of"),
        "in Rust": (lambda text: compiled_rust(room, text), calls_in_rust, "that must be used"),
    }
    for where, (compiler, calls, warning) in ways.items():
        status, said = compiler(calls(names, interface, True))
        yield f"results that are read {where}", said if status else None
        status, said = compiler(calls(names, interface, False))
        warned = len(re.findall(f"error: [^\n]*{warning}", said))
        wrong = None if status and warned == len(names) else f"{warned} of {len(names)} are warned of\n{said}"
        yield f"results that are dropped {where}", wrong


def elsewhere(room):
    """Whether the header is refused for other machines."""
    for flag in ("-m32", "-mx32", "-D_WIN32", "-D__CYGWIN__", "-U__x86_64__"):
        status, said = compiled(room, [*C, flag], '#include "limbegoru.h"\n')
        yield f"refused with {flag}", None if status and REFUSED in said else said or "it is NOT refused"


def called(interface):
    """Whether the test in C has every function on memory, and on NULL."""
    calls = re.findall(r"\b(lg_\w+)\(([^()]*)\)", read(os.path.join(TOP, "host", "c", "calls.c")))
    lends = {name for name, (_, parameters) in interface.functions.items() if parameters}
    on_memory = {name for name, arguments in calls if "NULL" not in arguments}
    on_none = {name for name, arguments in calls if "NULL, 0" in arguments}
    yield "every function called in C", ", ".join(sorted(set(interface.functions) - on_memory)) or None
    yield "every function called in C on NULL", ", ".join(sorted(lends - on_none)) or None


def read_me(room):
    """Whether the two pieces of C in README.md compile: a program, and lines of a function."""
    program, lines = re.findall(r"```c\n(.*?)```", read(os.path.join(TOP, "README.md")), flags=re.S)
    lines = f'#include "limbegoru.h"\nlg_pair lines(void);\nlg_pair lines(void) {{\n{lines}return pair;\n}}\n'
    for name, text in (("program", program), ("lines", lines)):
        status, said = compiled(room, C, text)
        yield f"the {name} in README.md", said if status else None


def judged():
    interface = Interface()
    with tempfile.TemporaryDirectory() as room:
        yield from layouts(interface, room)
        yield from declarations(interface)
        yield from archive(interface)
        yield from drops(interface, room)
        yield from elsewhere(room)
        yield from called(interface)
        yield from read_me(room)


def main():
    passed = failed = 0
    try:
        for what, wrong in judged():
            passed, failed = passed + (wrong is None), failed + (wrong is not None)
            print(f"header: {what}{'' if wrong is None else ': FAILED: ' + wrong}")
    except Unreadable as error:
        failed += 1
        print(f"header: {error}")
    print(f"{passed} passed, {failed} failed")
    return 1 if failed else 0


if __name__ == "__main__":
    sys.exit(main())
