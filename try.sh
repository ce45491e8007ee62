#!/usr/bin/env bash
# Runs the program at once, with the given words, on standard input. Nothing is proved before.
set -eu
cd "$(dirname "$0")/crates/crgc_main"
echo "try.sh: this build checks while it runs, and is not the proved one (./build.sh makes that)" >&2
exec rt try -- "$@"
