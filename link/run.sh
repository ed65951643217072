#!/usr/bin/env bash
# Builds the static libraries, holds zibdalk.h against what they export, and compiles and runs the examples in C and in Rust.
# It needs the Rattle kit, gcc, nm and rustc. With an argument it takes the libraries from that folder and builds none.
set -eu -o pipefail
given=
if [ $# -gt 0 ]; then
  given=$(cd "$1" && pwd)
fi
cd "$(dirname "$0")/.."
libraries=(replay_words replay_image questions_c)
built=target/link
mkdir -p "$built" target/staticlib

fail() {
  echo "link: $*" >&2
  exit 1
}

for command in gcc nm rustc; do
  command -v "$command" > /dev/null || fail "the command $command is not there"
done

for name in "${libraries[@]}"; do
  if [ -n "$given" ]; then
    cp "$given/lib$name.a" target/staticlib/
  else
    echo "link: proving and building target/staticlib/lib$name.a; where nothing is proved yet this takes 10 to 30 minutes" >&2
    (cd "crates/$name" && rt lib) > "$built/$name.log" 2>&1 || fail "lib$name.a was not built; $built/$name.log has all that rt said"
    cp "crates/$name/out/lib$name.a" target/staticlib/
  fi
done

# The functions that the header declares are those that the libraries define for others, each once.
gcc -E -P link/zibdalk.h | grep -oE '\b(zibdalk|questions)_[a-z0-9_]+ *\(' | tr -d ' (' | sort > "$built/declared"
for name in "${libraries[@]}"; do
  nm --defined-only --extern-only --format=posix "target/staticlib/lib$name.a" | awk 'NF > 1 { print $1 }'
done | sort > "$built/exported"
if ! diff "$built/declared" "$built/exported" > "$built/differences"; then
  sed -n 's/^< /link: declared and not exported: /p; s/^> /link: exported and not declared: /p' "$built/differences" >&2
  fail "zibdalk.h and the libraries do not agree"
fi
echo "link: zibdalk.h declares the $(wc -l < "$built/exported") functions that the libraries export" >&2

# What the libraries call: no more than the C library's functions on memory.
for name in "${libraries[@]}"; do
  nm --undefined-only --format=posix "target/staticlib/lib$name.a" | awk 'NF > 1 { print $1 }'
done | sort -u > "$built/called"
if grep -vxE 'mem(cpy|set|move|cmp)' "$built/called" >&2; then
  fail "the libraries call the functions above"
fi

archives=("${libraries[@]/#/-l}")
gcc -std=c11 -Wall -Wextra -Wpedantic -Werror -O2 -o "$built/example-c" link/example.c -L target/staticlib "${archives[@]}"
rustc --edition 2024 -O -D warnings -o "$built/example-rust" link/example.rs -L target/staticlib "${archives[@]/#-l/-lstatic=}"
for example in c rust; do
  "$built/example-$example" > "$built/$example.stdout" || fail "the example in $example ended with an error"
  diff link/expected "$built/$example.stdout" >&2 || fail "the example in $example wrote something else"
  echo "link: the example in $example wrote what it should" >&2
done
