#!/usr/bin/env python3
"""Records what jing and xmllint say about the hand-made cases of XML documents:   dev/search/fuzz/xml_record.py [FILE]

It replaces their fields in `programs/xml/tests/cases.tsv`, or in FILE. It keeps the fields of a program that is not installed. Then it prints the cases
whose reason is missing or not needed.
"""
import pathlib
import sys
import tempfile

import xml_judges

HERE = pathlib.Path(__file__).resolve().parent
sys.path.insert(0, str(HERE.parents[2] / "programs/xml/tests"))
import cases

ANY_NAME = "<anyName/>"
OTHERS = "<zeroOrMore><attribute><anyName/></attribute></zeroOrMore>"
NO_X = "<zeroOrMore><attribute><anyName><except><name>x</name></except></anyName></attribute></zeroOrMore>"
CONTENT = '<zeroOrMore><choice><text/><ref name="any"/></choice></zeroOrMore>'
TOP = '<grammar xmlns="http://relaxng.org/ns/structure/1.0"><start>{}</start><define name="any">{}</define></grammar>\n'


def escaped(text):
    """A text in XML. A control character that XML has no form for does not occur in a schema."""
    return "".join(it if it.isalnum() and it.isascii() else f"&#{ord(it)};" for it in text)


def element(inner, name=ANY_NAME):
    return f"<element>{name}{inner}</element>"


def in_space(uri, inner):
    return element(inner, f'<nsName ns="{escaped(uri)}"/>')


def value(text):
    return f'<value type="string">{escaped(text)}</value>'


def root(kind, text):
    """The pattern of the root of a case in XML syntax: what `cases.ROOTS` has in compact syntax."""
    uri = escaped(text)
    attribute = f'<attribute name="x">{value(text)}</attribute>'
    if kind == "any":
        return '<ref name="any"/>'
    if kind == "two":
        return element(OTHERS + "".join(element(OTHERS + in_space(it, OTHERS)) for it in text.split(" ")))
    return {
        "empty": lambda: element(OTHERS),
        "text": lambda: element(OTHERS + value(text)),
        "x": lambda: element(attribute + NO_X + CONTENT),
        "-x": lambda: element(NO_X + CONTENT),
        "ns": lambda: in_space(text, OTHERS + CONTENT),
        "xns": lambda: element(f'<attribute name="x" ns="{uri}"/><zeroOrMore><attribute><anyName><except><name ns="{uri}">x</name></except></anyName>'
                               f"</attribute></zeroOrMore>{CONTENT}"),
        "-xns": lambda: element(f'<zeroOrMore><attribute><anyName><except><nsName ns="{uri}"/></except></anyName></attribute></zeroOrMore>{CONTENT}'),
        "child": lambda: element(OTHERS + "<text/>" + in_space(text, OTHERS + CONTENT) + "<text/>"),
        "child-x": lambda: element(OTHERS + "<text/>" + element(attribute + NO_X + CONTENT) + "<text/>"),
    }[kind]()


def full_syntax(schema):
    """The schema of a case in XML syntax."""
    kind, _, text = schema.partition("=")
    return TOP.format(root(kind, cases.text_of(text)), element(OTHERS + CONTENT))


def record(every, folder):
    """Writes what the programs say into the fields of the cases."""
    schemas = {it: f"s{number}" for number, it in enumerate(dict.fromkeys(case.schema for case in every))}
    xml_judges.lay_out(folder, {f"{name}.rnc": cases.compact(it) for it, name in schemas.items()})
    xml_judges.lay_out(folder, {f"{name}.rng": full_syntax(it) for it, name in schemas.items()})
    jing, xmllint = xml_judges.jing(folder, [f"{name}.rnc" for name in schemas.values()]), xml_judges.xmllint(folder)
    for case in every:
        (folder / "d.xml").write_bytes(case.data())
        if jing:
            case.jing = case.fields[4] = jing.judged(schemas[case.schema] + ".rnc", "d.xml", "open").kind
        if xmllint:
            case.xmllint = case.fields[5] = xmllint.judged(schemas[case.schema] + ".rng", ["d.xml"])[0].kind
    if jing:
        jing.close()


def written(path, every):
    """The lines of the file with the fields of the cases."""
    left = iter(every)
    for line in path.read_text(encoding="ascii").splitlines():
        yield line if not line or line.startswith("#") else "\t".join(next(left).fields)


def main():
    path = pathlib.Path(sys.argv[1]) if len(sys.argv) > 1 else HERE.parents[2] / "programs/xml/tests/cases.tsv"
    every = cases.read(path)
    with tempfile.TemporaryDirectory() as folder:
        record(every, pathlib.Path(folder))
    path.write_text("".join(it + "\n" for it in written(path, every)), encoding="ascii")
    for case in every:
        if case.differs() != (case.reason != "-"):
            print(f"{case.name}: {'|'.join(case.answers)}, jing: {case.jing}, xmllint: {case.xmllint}, reason: {case.reason}")
    return 0


if __name__ == "__main__":
    sys.exit(main())
