#!/bin/sh
# Runs the two programs on every sample folder and on every example line of docs/DECISIONS.md, and compares what they print.
# Usage: samples/compare.sh [FOLDER OF THE PROGRAMS]; without one, as `rt run` in crates/pcc_check and in crates/pcc_run builds them.
set -eu
root=$(cd "$(dirname "$0")/.." && pwd)
folder=${1:+$(cd "$1" && pwd)}
exec python3 "$root/samples/compare.py" "$root" "$folder"
