#!/usr/bin/env python3
"""Writes a `main` that calls each function for C, so that a program has them all:   programs/library/calls.py crates/rncv_c/src/lib.rt >> main.rt"""
import re
import sys

FUNCTION = re.compile(r'^pub extern "C" fn (\w+)\(([^)]*)\)', re.M)

# A value for each type of a parameter.
VALUES = {
    "Global": "alloc",
    "&[SchemaFile<'_>]": '&[SchemaFile { name: "a".as_bytes(), bytes: "empty".as_bytes() }]',
    "&[u8]": '"empty".as_bytes()',
    "&[AttributeBytes<'_>]": '&[AttributeBytes { name: NameBytes { uri: "".as_bytes(), local: "a".as_bytes() }, value: "b".as_bytes() }]',
    "u32": "0",
    "u64": "0",
    "&mut Handle": "&mut Handle::empty(alloc)",
    "&mut Refusal": "&mut Refusal { clause: 0, file: 0, offset: 0, line: 0, column: 0 }",
    "&mut ReasonNumbers": "&mut ReasonNumbers { kind: 0, attribute: 0 }",
    "&mut Judgement": "&mut Judgement { kind: 0, clause: 0, line: 0 }",
    "&mut [u8]": "&mut [0u8; 1]",
    "&mut usize": "&mut 0usize",
    "&mut u64": "&mut 0u64",
}


def values_for(name, parameters):
    """The arguments of a call."""
    for parameter in filter(None, re.split(r",\s*", parameters.strip())):
        kind = parameter.partition(": ")[2].strip()
        if kind not in VALUES:
            sys.exit(f"calls.py: no value for `{parameter}` of {name}: add one to VALUES")
        yield VALUES[kind]


def main():
    with open(sys.argv[1], encoding="utf-8") as crate:
        functions = FUNCTION.findall(crate.read())
    print("\nfn main(rt: HostRuntime) {\n    let alloc = rt.alloc();")
    for name, parameters in functions:
        print(f"    let _ = {name}({', '.join(values_for(name, parameters))});")
    print("}")


main()
