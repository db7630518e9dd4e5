#!/bin/sh
# Measures the gate. It is not part of it.
#
#   dev/check/gate_times/run.sh               runs `rt ci` on the checkout, from nothing, and prints what each crate's proofs, tests and edits took
#   dev/check/gate_times/run.sh functions     checks a copy of each crate from nothing, and prints each crate's ten costliest functions
#
# Nothing else should run on the machine. The output of `rt ci` goes to out/gate.log, each line with its time in seconds. The processes of the prover go to
# out/gate.json.
exec python3 "$(dirname "$0")/gate_times.py" "$@"
