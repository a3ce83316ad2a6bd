#!/bin/sh
# Builds the static library and the C examples, and runs them. CFLAGS='-g -fsanitize=address,undefined' has the examples watched, and
# so has valgrind target/lists afterwards.
set -e
cd "$(dirname "$0")/.."
mkdir -p target
(cd crates/tangents_c && rt lib) > target/staticlib.log 2>&1 || { cat target/staticlib.log; exit 1; }
for name in pillow lists; do
    cc $CFLAGS -Wall -Wextra -Iinclude examples/$name.c crates/tangents_c/out/libtangents_c.a -o target/$name
    target/$name
done
