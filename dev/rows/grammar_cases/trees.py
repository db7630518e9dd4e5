"""File trees in the form in which `{:?}` prints the trees of `rnc_grammar`."""

XML = "http://www.w3.org/XML/1998/namespace"
XSD = "http://www.w3.org/2001/XMLSchema-datatypes"
EMPTY, TEXT, NOT_ALLOWED, ANY = "Empty", "Text", "NotAllowed", "Any"


def string(text):
    escaped = text.replace("\\", "\\\\").replace('"', '\\"')
    return f'"{escaped}"'


def listed(parts):
    return f"[{', '.join(parts)}]"


def namespace(uri):
    """A namespace; None is the inherited one."""
    return "Inherited" if uri is None else f"Given({string(uri)})"


def name(uri, local):
    return f"Name(ExpandedName {{ namespace: {namespace(uri)}, local: {string(local)} }})"


def any_except(inner):
    return f"AnyExcept({inner})"


def every(uri):
    return f"Ns({namespace(uri)})"


def every_except(uri, inner):
    return f"NsExcept({namespace(uri)}, {inner})"


def classes(*members):
    return f"Choice({listed(members)})"


def datatype(library, local):
    return f"DatatypeName {{ library: {string(library)}, name: {string(local)} }}"


STRING, TOKEN = datatype("", "string"), datatype("", "token")


def value(type_name, text):
    return f"Value(DatatypeValue {{ type_name: {type_name}, text: {string(text)} }})"


def token(text):
    return value(TOKEN, text)


def data(type_name, *parameters, excepted=None):
    pairs = listed(f"({string(a)}, {string(b)})" for a, b in parameters)
    used = f"Datatype {{ type_name: {type_name}, parameters: {pairs} }}"
    return f"Data {{ datatype: {used}, except: {'None' if excepted is None else f'Some({excepted})'} }}"


def mention(href, uri, place):
    return f"Mention {{ href: {string(href)}, namespace: {namespace(uri)}, token: {place} }}"


def element(names, body):
    return f"Element({names}, {body})"


def attribute(names, body):
    return f"Attribute({names}, {body})"


def around(kind):
    return lambda body: f"{kind}({body})"


list_of, mixed = around("List"), around("Mixed")
optional, zero_or_more, one_or_more = around("Optional"), around("ZeroOrMore"), around("OneOrMore")
external = around("External")


def of_members(kind):
    return lambda *members: f"{kind}({listed(members)})"


group, interleave, choice, grammar, div = map(of_members, ("Group", "Interleave", "Choice", "Grammar", "Div"))


def ref(local):
    return f"Ref({string(local)})"


def parent(local):
    return f"ParentRef({string(local)})"


def start(method, body):
    return f"Start({method}, {body})"


def define(local, method, body):
    return f"Define({string(local)}, {method}, {body})"


def include(mentioned, *overrides):
    return f"Include({mentioned}, {listed(overrides)})"


def pattern_file(pattern):
    return f"Pattern({pattern})"


grammar_file = grammar
