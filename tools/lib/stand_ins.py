"""What stands in for the toolchain and for Python where tools/first_run tries ./replay."""

# A stand-in for rt. It writes to its log what it is called for.
#
# As `rt ci` it lists the files that it finds, with their sums, beside its log, and makes the out/ of each crate anew, one
# at first and the others at its end. It leaves a temporary file, says of one crate that it is proved, and takes
# CI_SECONDS, and END_SECONDS more where it is ended. It fills the disk if there is a FULL, or refuses the crate BAD;
# else it builds the program, and leaves what the crate's file stdout has as what the program wrote.
#
# As `rt try` it takes TRY_SECONDS, and links a program, but fills the disk if there is a FULL.
STAND_IN = """#!/usr/bin/env bash
set -euo pipefail
fill() { [ -z "${FULL-}" ] || { touch "$FULL"; echo "stand-in: the disk is full" >&2; exit 2; }; }
if [ "$1" = try ]; then
  echo "$*" >> "$STAND_IN_LOG"
  sleep "${TRY_SECONDS-0}"
  fill
  exec "${0%/bin/rt}/toolchain/bin/ld.lld" -o "$TMPDIR/linked"
fi
[ "$*" = ci ]
{ find crates HANDLES -type f -exec sha256sum {} + && cat crates.txt; } > "$STAND_IN_LOG.room"
mktemp > /dev/null
rm -rf crates/*/out
mkdir crates/cordyceps_base/out
echo "== cordyceps_base"
echo "stand-in: 7 of 7 functions"
echo "rt: cordyceps_base proved"
trap 'sleep "${END_SECONDS-0}"; exit 1' TERM
# (so that this line has been read)
sleep 0.2
echo "$*" >> "$STAND_IN_LOG"
sleep "${CI_SECONDS-0}"
fill
if [ -n "${BAD-}" ]; then
  echo "stand-in: $BAD is refused"
  echo "rt: FAILED: $BAD"
  exit 1
fi
for crate in crates/*/; do
  mkdir -p "$crate/out"
done
app=crates/cordyceps_replay/out/cordyceps_replay
cp crates/cordyceps_replay/stdout "${app%/*}"
printf '#!/bin/sh\\necho "proved $1"\\n' > "$app"
chmod +x "$app"
"""

# What it says as `rt ci` before it takes its time.
SAID = ["== cordyceps_base", "stand-in: 7 of 7 functions", "rt: cordyceps_base proved"]

# A stand-in for the linker of `rt try`.
LINKER = """#!/bin/sh
printf '#!/bin/sh\\necho "unproved $1"\\n' > "$2"
chmod +x "$2"
"""

# A stand-in for Python. Once there is the file FULL, it cannot write.
PYTHON = """#!/bin/sh
[ -e "$FULL" ] || exec "{python}" "$@"
echo "OSError: [Errno 28] No space left on device" >&2
exit 1
"""
