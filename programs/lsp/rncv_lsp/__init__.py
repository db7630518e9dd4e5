"""The language server `rncv-lsp`. Nothing in this package is proved: the verdicts are those of the library (docs/use/LIBRARY.md)."""

__version__ = "0.9.0"

# The sets of datatypes that a schema may name, as `rncv.compile` takes them. The first is the default.
DATATYPES = ("xml-schema", "profile")

# How many faults of a document are told: the number where nothing else is said, and the greatest one.
USUAL_FAULTS, MOST_FAULTS = 20, 1_000
