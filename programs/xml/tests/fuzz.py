"""The loop of fuzz.sh:   fuzz.py SECONDS FOLDER"""
import io
import json
import os
import pathlib
import random
import subprocess
import sys
import time

import differences
import generated
import second_opinion
from testing import RNCV, RNCV_XML, XML2PYX

import pyx_writer

SCHEMAS = ("start = any\nany = element * { (attribute * { text } | text | any)* }\n",
           "start = element a { attribute x { 'v' }?, (element b { xsd:integer } | text) }\n")
WORDS = (b"<!DOCTYPE a [", b"]>", b"<!ENTITY e '&e;'>", b"<!ENTITY % p '%p;'>", b"<!ATTLIST a x CDATA '&e;'>", b"%p;", b"&#0;", b"&#x110000;",
         b"<?xml version='1.0' encoding='EUC-JP'?>", b"<?xml version='1.0' encoding='GB18030'?>", b"\xff\xfe", b"\xfe\xff", b"<a" * 600, b"x" * 70_000,
         b"&e;" * 500, b"<!--" + b"-" * 3_000, b"xmlns:p=''", b"\x00" * 7)


def changed(data, chance):
    """A mutant, sometimes with larger pieces put in."""
    data = generated.mutant(data, chance.random())
    if chance.random() < 0.3:
        at = chance.randrange(len(data) + 1)
        data = data[:at] + chance.choice(WORDS) + data[at:]
    return data


def in_python(data):
    """The PYX of the converter in Python, or None, and what it says of a fault."""
    lines = []
    try:
        pyx_writer.convert(io.BytesIO(data), lines.append)
        return b"".join(lines), []
    except pyx_writer.OutsideProfile as fault:
        return None, [fault.what]


def ran(words, folder):
    """The status, what is reported, and what is wrong with the run itself."""
    run = subprocess.run(words, cwd=folder, capture_output=True, timeout=60, check=False)
    errors = run.stderr.decode("utf-8", "replace")
    if run.returncode not in range(5) or "Sanitizer" in errors or "runtime error" in errors:
        return run.returncode, errors, f"{words[0]}: status {run.returncode}\n{errors[-3000:]}"
    return run.returncode, errors, None


def one(seed, folder):
    """What is wrong with a document of this seed, if anything."""
    chance = random.Random(seed)
    data = changed(generated.document(seed), chance)
    (folder / "d.xml").write_bytes(data)
    status, reported, fault = ran([XML2PYX, "d.xml"], folder)
    if fault:
        return fault
    pyx, reported_in_python = in_python(data)
    is_same = status == 2 if differences.has_lone_surrogates(data) else (status == 0) == (pyx is not None)
    if not is_same and not differences.is_explained(data, reported.splitlines(), pyx, reported_in_python):
        return f"xml2pyx ends with {status}: {reported}, and the converter in Python says {reported_in_python}"
    if RNCV_XML.exists():
        for name in ("s0.rnc", "s1.rnc"):
            fault = differs(name, status, folder)
            if fault:
                return fault
    return None


def differs(schema, status, folder):
    """What is wrong with the answer of rncv-xml, if anything. `status` is that of xml2pyx."""
    run = subprocess.run([RNCV_XML, "-j1", "--format", "json", schema, "d.xml"], cwd=folder, capture_output=True, timeout=60, check=False)
    errors = run.stderr.decode("utf-8", "replace")
    if run.returncode not in range(5) or "Sanitizer" in errors or "runtime error" in errors:
        return f"rncv-xml: status {run.returncode}\n{errors[-3000:]}"
    answer = json.loads(run.stdout)
    is_of_pyx = status == 2 and run.returncode != 2
    if is_of_pyx and "65,536 bytes" not in ran([XML2PYX, "d.xml"], folder)[1]:
        return f"rncv-xml says {answer}, and xml2pyx ends with {status}"
    opinion = second_opinion.by_pyx(schema, "d.xml", folder) if RNCV.exists() else None
    return None if second_opinion.is_same(answer["verdict"], answer.get("clause"), opinion) else f"rncv-xml says {answer}, and by PYX it is {opinion}"


def main():
    seconds, folder = float(sys.argv[1]), pathlib.Path(sys.argv[2])
    for number, schema in enumerate(SCHEMAS):
        (folder / f"s{number}.rnc").write_text(schema)
    seed = first = int(os.environ.get("FUZZ_SEED", random.randrange(10**9)))
    end = time.monotonic() + seconds
    while time.monotonic() < end:
        fault = one(seed, folder)
        if fault:
            kept = pathlib.Path(f"fuzz-{seed}.xml")
            kept.write_bytes((folder / "d.xml").read_bytes())
            print(f"fuzz.py: FUZZ_SEED={seed} ({kept}): {fault}")
            return 1
        seed += 1
    print(f"fuzz.py: {seed - first} documents from the seed {first} on, no fault" + ("" if RNCV_XML.exists() else "; without rncv-xml"))
    return 0


if __name__ == "__main__":
    sys.exit(main())
