#!/usr/bin/env bash
# The static library of the proved reader, for C and Rust: target/staticlib/libreader.a. What it is made of is proved first, where that is not done yet.
set -eu
cd "$(dirname "$0")/.."
(cd crates/reader_c && rt lib)
mkdir -p target/staticlib
cp crates/reader_c/out/libreader_c.a target/staticlib/libreader.a
