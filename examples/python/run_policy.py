#!/usr/bin/env python3
"""Runs a policy on a packet in hexadecimal digits (standard input), and prints the report.
usage: run_policy.py SECRET-FILE POLICY DICTIONARY.. <PACKET
The secret is the first line of its file. The module radpolicy is installed with the library: PYTHONPATH names its
folder, as /usr/share/radpolicy/python, and RADPOLICY_LIBRARY the library where the system does not find it."""
import sys
from pathlib import Path

import radpolicy


def main(secret_path: str, policy_path: str, *paths: str) -> int:
    secret = Path(secret_path).read_bytes().split(b"\n")[0].rstrip(b"\r")
    request = radpolicy.Request(bytes.fromhex(sys.stdin.read()), radpolicy.Form.PACKET, secret)
    try:
        with radpolicy.Dictionary.of_files(paths) as dictionary:
            with dictionary.policy(Path(policy_path).read_bytes()) as policy:
                print(policy.run(request).report, end="")
    except radpolicy.Refused as refused:
        print(refused, file=sys.stderr)
        return 2
    return 0


if __name__ == "__main__":
    if "--help" in sys.argv[1:]:
        print(__doc__)
        sys.exit(0)
    sys.exit(main(*sys.argv[1:]) if len(sys.argv) > 3 else __doc__)
