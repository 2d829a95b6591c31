#!/usr/bin/env bash
# Builds the C examples against the static library of the proved code, which .ci/archive writes where it is missing or older than the code
# (that needs the Rattle toolchain and takes minutes from nothing), runs them, and compares what they print with the .expected files.
set -euo pipefail
cd "$(dirname "${BASH_SOURCE[0]}")/../.."
.ci/archive
out=target/examples
mkdir -p "$out"
for name in push_base pull_base change_base turn_base query_dig compose_base first_path why_equal; do
    cc -std=c99 -Wall -Wextra -Werror -O2 -Iinclude "examples/c/$name.c" target/staticlib/libmigration.a -o "$out/$name"
    "$out/$name" | diff -u "examples/c/$name.expected" -
done
echo "C examples: as expected"
