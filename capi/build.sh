#!/usr/bin/env bash
# Builds the library for C: capi/out/libblossom.a and capi/out/libblossom.so, each with the calls
# of blossom.h as their symbols. It needs Python 3 and the Rattle toolchain (the command `rt`): its
# prover, its compiler and its linker. If capi/out is of the present sources, nothing is done.
#
# Usage: build.sh [--after-gate | --is-built]   without a word   the crates below are proved first,
# where `rt` hasn't kept that: after the first ./blossom there are two that it doesn't depend on
# --after-gate     `rt ci` has just passed here: what it left in crates/*/out is taken as it stands
# --is-built       builds nothing; the status is 0 where capi/out is of the present sources
set -u
case $#,${1-} in
  0, | 1,--after-gate | 1,--is-built) ;;
  *)
    echo "usage: build.sh [--after-gate | --is-built]" >&2
    exit 2
    ;;
esac
python3 "$(dirname "$0")/../scripts/build.py" library --for $$ "$@" </dev/null &
running=$!
for signal in INT TERM HUP; do trap "kill -$signal $running 2>/dev/null" "$signal"; done
wait "$running"
status=$?
while kill -0 "$running" 2>/dev/null; do
  wait "$running"
  status=$?
done
exit "$status"
