#!/usr/bin/env bash
# build_parts.sh FOLDER: proves and builds `bench/parts.txt` as a program of its own in a copy of this repository (what is
# committed), and prints where it is. What `rt ci` has proved on this machine is taken over; the rest is proved, which is most
# of an hour of processor time from nothing.
set -eu
top=$(cd "$(dirname "$(readlink -f "$0")")/.." && pwd)
git clone -q "$top" "$1"
python3 -B "$top/tools/adopt.py" "$1" >&2 || true
mkdir -p "$1/crates/parts/src"
cp "$top/bench/parts.txt" "$1/crates/parts/src/main.rt"
cp "$top/bench/samples.txt" "$1/crates/parts/src/samples.rt"
echo "parts: jc_control jc_moment jc_queue jc_ranges jc_states jc_table jc_types" >>"$1/crates.txt"
(cd "$1/crates/parts" && rt run -- table 1) >&2
echo "$1/crates/parts/out/parts"
