#!/bin/sh
# Puts the program and its man page below a folder. Usage: install.sh [PREFIX [PROGRAM]]   (/usr/local, and the program that
# `rt run` left)
set -eu
top=$(cd "$(dirname "$0")/.." && pwd)
prefix=${1:-/usr/local}
program=${2:-$top/crates/pulsar_txn/out/pulsar_txn}
install -D -m 755 "$program" "$prefix/bin/pulsar_txn"
install -D -m 644 "$top/docs/pulsar_txn.1" "$prefix/share/man/man1/pulsar_txn.1"
