#!/usr/bin/env bash
# Builds the static library and the comparison, and runs it. Arguments: the number of pages, and a seed.
set -eu
cd "$(dirname "$0")/../.."
(cd crates/questions_c && rt lib) >&2
mkdir -p target/staticlib
cp crates/questions_c/out/libquestions_c.a target/staticlib/libquestions.a
cargo run --release --quiet --manifest-path compare/questions/Cargo.toml --target-dir target/compare -- "$@"
