#!/usr/bin/env python3
"""Times the built program on large schemas of one file. It is not part of the gate.

    dev/bench/schema_time/run.py [PROGRAM]

The default PROGRAM is `crates/rncv/out/rncv`. Each row has the answer, the seconds of a processor and the greatest memory.
"""
import pathlib
import sys
import tempfile

sys.path.insert(0, str(pathlib.Path(__file__).resolve().parents[1]))
from measuring import PROGRAM, Table, answer, took  # noqa: E402

COUNT = 20000
# members of a list: each is one level deeper in the tree than the previous one
LIST = 500


def lists(sign, members):
    """The members joined by the sign, in lists of 500 that are joined in the same way."""
    sign = f" {sign} "
    return sign.join("(" + sign.join(members[i : i + LIST]) + ")" for i in range(0, len(members), LIST))


def attributes(front, count):
    return [f"attribute {front}{i} {{ text }}" for i in range(count)]


def elements(front, count):
    return [f"element {front}{i} {{ empty }}" for i in range(count)]


def names(front, count):
    return lists("|", [f"{front}{i}" for i in range(count)])


def doubled(levels, sign, last):
    """Definitions. Each mentions the next one twice."""
    return "".join(f"x{i} = x{i + 1} {sign} x{i + 1}\n" for i in range(levels)) + f"x{levels} = {last}\n"


def schemas():
    yield "20,000 attributes of different names", f"start = element a {{ {lists(',', attributes('n', COUNT))} }}"
    yield "the same, and the first once more at the end", f"start = element a {{ {lists(',', attributes('n', COUNT) + ['attribute n0 { text }'])} }}"
    yield "20,000 elements of different names, interleaved", f"start = element a {{ {lists('&', elements('n', COUNT))} }}"
    yield "the same, and the first once more at the end", f"start = element a {{ {lists('&', elements('n', COUNT) + ['element n0 { text }'])} }}"
    yield (
        "two attributes, each of 20,000 names",
        f"start = element a {{ attribute {names('n', COUNT)} {{ text }}, attribute {names('m', COUNT)} {{ text }} }}",
    )
    yield (
        "20,000 elements, and one of any other name, interleaved",
        f"start = element a {{ element * - ({names('n', COUNT)}) {{ empty }}* & ({lists('&', elements('n', COUNT))}) }}",
    )
    yield (
        "100 elements of any name of a namespace but 900, interleaved",
        "".join(f'namespace p{i} = "u{i}"\n' for i in range(100))
        + "start = element a { "
        + " & ".join(f"element p{i}:* - (" + "|".join(f"p{i}:n{j}" for j in range(900)) + ") { empty }" for i in range(100))
        + " }",
    )
    yield (
        "500 namespaces of attributes, each repeated",
        "".join(f'namespace p{i} = "u{i}"\n' for i in range(500))
        + "start = element a { " + ", ".join(f"attribute p{i}:* {{ text }}*" for i in range(500)) + " }",
    )
    yield "400 definitions, each the next one twice, of a choice", "start = element a { x0 }\n" + doubled(400, "|", "element b { empty }")
    yield "400 definitions, each the next one twice, interleaved", "start = element a { x0 }\n" + doubled(400, "&", "empty | list { 'x' }")


def refs(count, last):
    """Definitions of elements. Each element refers to the next one."""
    return "".join(f"x{i} = element b {{ x{i + 1} }}\n" for i in range(count)) + f"x{count} = {last}\n"


def simple_forms():
    yield "valid", "600 definitions, each the next one twice", "start = element a { x0 }\n" + doubled(599, ",", "text")
    yield "check", "30,000 elements, each in the one before", "start = element a { x0 }\n" + refs(30000, "element b { empty }")
    row = "start = element a { empty | x0 }\n" + "".join(f"x{i} = x{i + 1}\n" for i in range(50000))
    yield "valid", "50,000 refs in a row", row + "x50000 = element b { empty }\n"
    yield "check", "the same in a ring", row + "x50000 = x0\n"
    yield "check", "200,000 members in one choice", "start = element a { " + "|".join(["text"] * 200000) + " }"
    yield "check", "1,000 names in a class", "start = element (" + "|".join(f"a{i}" for i in range(1000)) + ") { empty }"
    yield "check", "1,001 names in a class", "start = element (" + "|".join(f"a{i}" for i in range(1001)) + ") { empty }"


def main():
    program = pathlib.Path(sys.argv[1] if len(sys.argv) > 1 else PROGRAM).resolve()
    rows = [*simple_forms(), *(("check", what, schema) for what, schema in schemas())]
    table = Table("Schema", "Command", "Answer", "Seconds of a processor", "MiB")
    with tempfile.TemporaryDirectory(prefix="schema-time-") as folder:
        document = pathlib.Path(folder, "document.pyx")
        document.write_text("(a\n)a\n")
        for command, what, schema in rows:
            pathlib.Path(folder, "s.rnc").write_text(schema)
            run = took([program, command, "s.rnc"], stdin=document, cwd=folder)
            table.row(what, f"`{command}`", f"`{answer(run)}`", f"{run.processor / 1000:.2f}", f"{run.memory:.0f}")


if __name__ == "__main__":
    main()
