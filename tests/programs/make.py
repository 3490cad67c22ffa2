#!/usr/bin/env python3
"""Writes what the programs are run on, and what they must print: crates/NAME/stdin and stdout.

    replay   a generated list of 450 records, more than two chunks of 224 behind the first, and a short record: `cut`
    inputs   several inputs: the listing, none, settings that are refused, first records that are short or no settings, short ends
    trace    all recorded lists

What they must print are the lines of the reference (tests/reference). `--check` writes nothing, and fails where a file is not what it should be.
"""
import pathlib
import struct
import subprocess
import sys

ROOT = pathlib.Path(__file__).resolve().parent.parent.parent
REFERENCE = ROOT / "tests/reference"
RELEASE = REFERENCE / "target/release"
RECORDED = ROOT / "tests/recorded"
RECORD = 292


def output(command, data=b""):
    return subprocess.run([str(word) for word in command], input=data, stdout=subprocess.PIPE, check=True).stdout


def lines(data):
    return output([RELEASE / "reference"], data)


def replay():
    data = output([RELEASE / "generate", 20261116, 450, "mesh"])
    assert len(data) == 450 * RECORD, len(data)
    data += data[RECORD:2 * RECORD - 1]
    return data, lines(data)


def inputs():
    listing = (RECORDED / "listing.bin").read_bytes()
    refused = bytearray(listing)
    refused[16:18] = b"\0\0"            # HelloInterval 0
    other = bytearray(listing)
    other[0] = 1                        # link up
    each = [
        listing,
        b"",
        bytes(refused),
        bytes(other),
        listing[:1],
        listing[:RECORD - 1],
        listing[:RECORD],
        listing[:RECORD + 1],
        listing[:3 * RECORD - 1],
        listing[:-1],
        listing + b"\4",
    ]
    return b"".join(struct.pack(">I", len(x)) + x for x in each), b"".join(lines(x) for x in each)


def trace():
    names = sorted(RECORDED.glob("*.bin"))
    data = [x.read_bytes() for x in names]
    return (
        b"".join(struct.pack(">I", len(x) // RECORD) + x[:len(x) // RECORD * RECORD] for x in data),
        b"".join(x.with_suffix(".octets").read_bytes() for x in names),
    )


def main():
    subprocess.run(
        ["cargo", "build", "--release", "--offline", "--quiet", "--manifest-path", str(REFERENCE / "Cargo.toml")], check=True
    )
    for name, made in [("replay", replay()), ("inputs", inputs()), ("trace", trace())]:
        for file, octets in zip(["stdin", "stdout"], made):
            path = ROOT / "crates" / name / file
            if sys.argv[1:] != ["--check"]:
                path.write_bytes(octets)
            elif path.read_bytes() != octets:
                sys.exit(f"crates/{name}/{file} is not what it should be: run tests/programs/make.py")


main()
