#!/usr/bin/env python3
"""Runs a built program over a file of vectors and reports the differences.

usage: tools/check_vectors.py PROGRAM FILE.jsonl [ARGUMENT...]

Each line of the file is a JSON object with `name`, `input_hex` (standard input in hexadecimal) and `expect`
(standard output, compared byte for byte). An expected first line that begins with `NO` must come with exit
status 1, any other with 0, and nothing may stand on standard error; ends with status 1 if anything differs.
"""
import json
import subprocess
import sys


def main():
    if len(sys.argv) < 3:
        sys.exit(__doc__)
    program, path, arguments = sys.argv[1], sys.argv[2], sys.argv[3:]
    total = wrong = 0
    with open(path, encoding="ascii") as lines:
        for line in lines:
            vector = json.loads(line)
            run = subprocess.run([program, *arguments], input=bytes.fromhex(vector["input_hex"]), capture_output=True)
            expect = vector["expect"].encode("ascii")
            status = 1 if expect.startswith(b"NO") else 0
            total += 1
            if run.stdout != expect or run.returncode != status or run.stderr:
                wrong += 1
                print(f"{vector['name']}: status {run.returncode} (expected {status})")
                print(f"  got      {run.stdout[:200]!r}")
                print(f"  expected {expect[:200]!r}")
                print(f"  on standard error {run.stderr[:200]!r}")
    print(f"{total} vectors, {wrong} differ")
    sys.exit(1 if wrong else 0)


if __name__ == "__main__":
    main()
