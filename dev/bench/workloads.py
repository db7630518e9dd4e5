"""Documents that several timers make."""

# a schema of records, and a record of it: some 150 bytes of XML
SCHEMA = """start = element records { record* }
record = element record {
  attribute id { xsd:NCName },
  attribute kind { "a" | "b" | "c" },
  element name { text },
  element count { xsd:integer { minInclusive = "0" } },
  (element note { text } | element link { attribute to { xsd:NCName } })*
}
"""


def record(chance, number):
    rest = f"<note>some words &amp; more, {chance.random()}</note>" if chance.random() < 0.7 else f'<link to="r{chance.randrange(10**6)}"/>'
    return (f'  <record id="r{number}" kind="{chance.choice("abc")}">\n    <name>Person number {chance.randrange(10**6)}</name>\n'
            f"    <count>{chance.randrange(1000)}</count>\n    {rest}\n  </record>\n")


def records(chance, size):
    """A valid document of this many bytes or some more, in pieces."""
    yield '<?xml version="1.0"?>\n<records>\n'
    written, number = 0, 0
    while written < size:
        text = record(chance, number)
        yield text
        written += len(text)
        number += 1
    yield "</records>\n"


def as_xml(pyx):
    """A document in PYX as XML. Its texts have no markup and no escapes."""
    written, is_open = [], False
    for line in pyx.splitlines():
        kind, rest = line[0], line[1:]
        if kind == "A":
            name, _, value = rest.partition(" ")
            written.append(f' {name}="{value}"')
            continue
        written.append(">" if is_open else "")
        is_open = kind == "("
        written.append({"(": f"<{rest}", ")": f"</{rest}>", "-": rest}[kind])
    return "".join(written)
