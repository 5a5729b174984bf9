"""The program that a script runs: the one that its first word names, or the one that `rt run` left; and the names of its files."""
import os
import sys

SCRIPTS = os.path.dirname(os.path.abspath(__file__))
PROGRAM = os.path.abspath(sys.argv[1]) if len(sys.argv) > 1 else f"{SCRIPTS}/../crates/pulsar_txn/out/pulsar_txn"
LOG, LEDGER = "p00-r0000000002", "p01-r0000000002"
