#!/bin/sh
# Proves the calls for C programs and builds their library: target/staticlib/libspear.a, to link beside include/spear.h.
set -e
cd "$(dirname "$0")/.."
(cd crates/spear_c && rt lib)
mkdir -p target/staticlib
cp crates/spear_c/out/libspear_c.a target/staticlib/libspear.a
