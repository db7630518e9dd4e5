"""Finds what expat silently leaves out of a document, and refuses it. Nothing here is proved.

Once a document has an external DTD or a reference to a parameter entity, expat drops some references in attributes: those to entities that are not
declared. After a parameter entity that is not read, it drops declarations.
"""
import re
import xml.parsers.expat

PREDEFINED = frozenset(("lt", "gt", "amp", "apos", "quot"))
REFERENCE = re.compile(r"&([^#;&\s][^;&\s]*);")
PART_OF_TAG = re.compile(r"""[^<>"']*(?:("[^<"]*"|'[^<']*')|>)""")
TAG_BEGINS = re.compile(r"<(?![!?/])")


def values_of(text, at):
    """The quoted values of the tag that begins at the offset, and whether it ends in the text."""
    values, at = [], at + 1
    while (part := PART_OF_TAG.match(text, at)) and part[1]:
        values.append(part[1])
        at = part.end()
    return "".join(values), part is not None


class Entities:
    """The general entities that are declared, each with its text (none for an external one) and its place."""

    def __init__(self):
        self.texts, self.places, self.whole = {}, {}, set(PREDEFINED)

    def declare(self, name, text, place):
        self.texts[name], self.places[name] = text, place

    def undeclared(self, text):
        """An entity that the text refers to, directly or through others, and that is not declared. None if there is no such entity."""
        seen, waiting = set(), REFERENCE.findall(text)
        while waiting:
            name = waiting.pop()
            if name in self.whole or name in seen:
                continue
            if name not in self.texts:
                return name
            seen.add(name)
            waiting += REFERENCE.findall(self.texts[name] or "")
        self.whole |= seen
        return None

    def undeclared_in_tags(self):
        """Such an entity in an attribute of a tag in an entity's text, with the place of the entity with that text. None if there is no such entity."""
        for name, text in self.texts.items():
            for tag in TAG_BEGINS.finditer(text or ""):
                found = self.undeclared(values_of(text, tag.start())[0])
                if found is not None:
                    return found, self.places[name]
        return None


class Declarations:
    """Watches the document's own DTD. `feed` knows the places. `refuse(place, what)` stops the reading, `report(line, column, what)` does not."""

    def __init__(self, parser, feed, refuse, report):
        self.parser, self.feed, self.refuse, self.report = parser, feed, refuse, report
        self.entities = Entities()
        self.standalone = self.drops = self.unread = False
        self.external_dtd = None, None
        self.attribute_list = self.attribute_place = None
        parser.SetParamEntityParsing(xml.parsers.expat.XML_PARAM_ENTITY_PARSING_ALWAYS)
        parser.StartDoctypeDeclHandler = self.begins
        parser.EndDoctypeDeclHandler = self.ends
        parser.EntityDeclHandler = self.entity
        parser.ExternalEntityRefHandler = self.external
        parser.SkippedEntityHandler = self.skipped

    def begins(self, name, system, public, has_internal):
        """Takes the document type. An external part is reported, since it is not loaded. The tokens of the internal part go to `token`, except comments."""
        self.external_dtd = system, public
        if system is not None:
            self.drops = True
            self.not_loaded(f"the external DTD {system!r}")
        self.parser.CommentHandler = lambda text: None
        self.parser.DefaultHandlerExpand = self.token

    def not_loaded(self, what, why="is not loaded"):
        self.report(*self.feed.here(), f"{what} {why}: its entities and attribute defaults are not there")

    def token(self, text):
        """Takes a token of a declaration that no handler takes: those of attribute lists, and all that expat drops."""
        if text in ("<!ATTLIST", "<!ENTITY") and self.unread and not self.standalone:
            self.refuse(self.feed.here(), "a declaration behind a parameter entity that is not loaded")
        if text == "<!ATTLIST":
            self.attribute_list, self.attribute_place = [], self.feed.here()
        elif self.attribute_list is not None and text == ">":
            self.declared(self.entities.undeclared("".join(self.attribute_list)), self.attribute_place)
            self.attribute_list = None
        elif self.attribute_list is not None:
            self.attribute_list.append(text)

    def declared(self, undeclared, place):
        if undeclared is not None:
            self.refuse(place, f"entity {undeclared!r} is not declared in the document itself")

    def entity(self, name, is_parameter, text, base, system, public, notation):
        if is_parameter:
            self.drops = True
        else:
            self.entities.declare(name, text, self.feed.here())

    def external(self, context, base, system, public):
        """A parameter entity and the external DTD have no context. Any other entity belongs to the document's content."""
        if context is not None:
            self.refuse(self.feed.here(), f"external entity {system!r} is not loaded")
        if (system, public) != self.external_dtd:
            self.not_loaded(f"the parameter entity {system!r}")
        self.unread = True
        return 1

    def skipped(self, name, is_parameter):
        if not is_parameter:
            self.declared(name, self.feed.here())
        self.drops = self.unread = True
        self.not_loaded(f"the parameter entity {name!r}", "is not declared")

    def ends(self):
        self.parser.CommentHandler = self.parser.DefaultHandlerExpand = None
        found = self.entities.undeclared_in_tags() if self.drops and not self.standalone else None
        if found:
            self.declared(*found)

    def check_tag(self, place):
        """Refuses the tag if one of its attributes refers to an entity that is not declared."""
        values = ""
        for text in self.feed.source() if self.drops else ():
            values, is_whole = values_of(text, 0) if text.startswith("<") else ("", True)
            if is_whole:
                break
        self.declared(self.entities.undeclared(values), place)
