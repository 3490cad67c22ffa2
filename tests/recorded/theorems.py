#!/usr/bin/env python3
"""Writes the recorded files of this folder as theorems: crates/runs/proofs.

Each NAME.bin is a replay file, NAME.octets the lines of the reference for it, each with the octets written at that event
in hexadecimal and the state of the record's slot, which the program `trace` compares. A theorem says that the rules, evaluated on the file, give these lines and octets. `--check` writes nothing, and fails where a file is not what it should be.
"""
import os
import sys

HERE = os.path.dirname(os.path.abspath(__file__))
OUT = os.path.join(HERE, "..", "..", "crates", "runs", "proofs")
RECORD = 292
EACH = 4          # files to a module

HEAD = """-- Recorded lists of events, evaluated: written by tests/recorded/theorems.py.
-- Assumes nothing.
use mathlib.Core.Path.{◌≡◌, refl}
use mathlib.Core.List.{[], ◌∷◌}
use Rattle.protocol.specs.Checksum.{total}
use Rattle.protocol.specs.Layouts.{record_octets, records_octets, receivers_octets, mandatory, layout, packet_of}
use Rattle.protocol.specs.Checks.{head_check, element_check, elements_check, mandatory_check}
use Rattle.protocol.specs.Answers.{fixed_code}
use Rattle.protocol.specs.Reading.{record_at, records_at, receivers_at, message_at, read_packet}
use Rattle.rules.specs.Rows.{next}
use Rattle.rules.specs.Events.{code_of, acted, step, written_at}
use Rattle.protocol.proofs.Worked.{octets_of}
use Rattle.rules.specs.Replay.{cut, lines_from, replay, replayed}
use Rattle.runs.specs.Recorded.{record_from, file, expected}
"""
UNFOLD = ("unfolding octets_of replayed replay lines_from code_of acted step written_at next total record_octets records_octets "
          "receivers_octets mandatory layout packet_of head_check element_check elements_check mandatory_check fixed_code record_at "
          "records_at receivers_at message_at read_packet")


def numeral(b):
    return "0x" + b.hex() if b else "0"


def record(r):
    if len(r) < RECORD:
        return "octets_of %d %s []" % (len(r), numeral(r))
    short = r.rstrip(b"\0")
    return "record_from %d %s" % (len(short), numeral(short))


def line(text):
    words = text.split()
    if words == ["cut"]:
        return "cut"
    octets = b"" if words[4] == "-" else bytes.fromhex(words[4])
    assert len(octets) == int(words[2]), text
    return "expected %s %s %s %s %s" % (*words[:4], numeral(octets))


def theorem(name):
    data = open(os.path.join(HERE, name + ".bin"), "rb").read()
    lines = open(os.path.join(HERE, name + ".octets")).read().splitlines()
    records = [data[i:i + RECORD] for i in range(0, len(data), RECORD)]
    title = name.replace("-", "_")
    return "\n%s : replayed (file (%s [])) ≡ %s []\n%s\n%s = refl\n" % (
        title, " ".join(record(r) + " ∷" for r in records), " ".join(line(t) + " ∷" for t in lines), UNFOLD, title)


def modules():
    """Each file of crates/runs/proofs and its text."""
    names = sorted(f[:-4] for f in os.listdir(HERE) if f.endswith(".bin"))
    made = {}
    for i in range(0, len(names), EACH):
        made["Runs%02d" % (i // EACH + 1)] = HEAD + "".join(theorem(n) for n in names[i:i + EACH])
    made["Lib"] = "".join("pub mod %s\n" % m for m in sorted(made))
    return made, len(names)


def there():
    return {f[:-5]: open(os.path.join(OUT, f), encoding="utf-8").read() for f in os.listdir(OUT) if f.endswith(".antt")}


def main():
    made, count = modules()
    if sys.argv[1:] == ["--check"]:
        # the layout of a file is the formatter's, so words are compared
        if {m: t.split() for m, t in made.items()} != {m: t.split() for m, t in there().items()}:
            sys.exit("crates/runs/proofs is not what tests/recorded says: run tests/recorded/theorems.py")
        return
    for m in there():
        os.remove(os.path.join(OUT, m + ".antt"))
    for m, text in made.items():
        with open(os.path.join(OUT, m + ".antt"), "w", encoding="utf-8") as out:
            out.write(text)
    print(count, "files in", len(made) - 1, "modules")


if __name__ == "__main__":
    main()
