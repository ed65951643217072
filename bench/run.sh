#!/bin/sh
# Builds the proved stepper as two static libraries, over words and over an image, then times it against the plain one.
set -eu
cd "$(dirname "$0")"
mkdir -p ../target/staticlib
for name in replay_words replay_image; do
    echo "bench: proving and building target/staticlib/lib$name.a; the first time this takes some minutes" >&2
    (cd ../crates/$name && rt lib) >&2
    cp ../crates/$name/out/lib$name.a ../target/staticlib/
done
echo "bench: building and running the benchmark" >&2
exec cargo run --release --features proved --bin bench "$@"
