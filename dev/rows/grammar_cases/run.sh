#!/bin/sh
# Writes the cases of the program `rnc_grammar_cases` again: the rows in its data/ with their answers, and its stdout, which has how many there are. Each
# run gives the same files.
#
#   dev/rows/grammar_cases/run.sh
#
# The worked cases are in worked.py, each with the tree or the clause that the rules give. sentences.py makes random sentences together with their trees.
# productions.py judges texts that differ from short sentences in one token. It tries the productions wherever they may begin.
exec python3 "$(dirname "$0")/write.py" "$(dirname "$0")/../../../crates/rnc_grammar_cases"
