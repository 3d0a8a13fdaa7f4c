#!/bin/sh
# Runs the unproved build, and says so.
echo "compactd: running an unproved build (run-time checks only): ./prove proves the program" >&2
exec "${0%/*}/../crates/compactd/out/unproved/compactd" "$@"
