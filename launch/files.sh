#!/bin/sh
# Lists the files that builds of the program are made from, and the builds: path, size, number of the file, and when its text
# and anything of it was last changed. No program can set the last of these.
cd "${0%/*}/.." || exit
out=crates/compactd/out
exec find -L HANDLES crates.txt crates/*/src crates/*/specs crates/*/proofs \
    $out/compactd $out/compactd.made_from $out/unproved/compactd $out/unproved/compactd.made_from \
    -type f -printf '%p %s %i %T@ %C@\n' 2>/dev/null
