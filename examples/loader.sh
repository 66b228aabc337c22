#!/bin/sh
# Compiles include/gate.h as C and C++, builds examples/loader.c against the static library (host/build), runs it, and compares what it prints
# with examples/loader.expected.
set -eu
cd "$(dirname "$0")/.."
folder=$(mktemp -d)
trap 'rm -rf "$folder"' EXIT
strict='-Wall -Wextra -Wpedantic -Werror -Iinclude'
twice='#include "gate.h"\n#include "gate.h"\n'
for standard in c99 c11 c17; do
    printf "$twice" | gcc -std=$standard $strict -fsyntax-only -x c -
done
for standard in c++98 c++11 c++20; do
    printf "$twice" | g++ -std=$standard $strict -fsyntax-only -x c++ -
done
host/build examples/loader.c "$folder/loader"
"$folder/loader" | tee "$folder/printed"
cmp "$folder/printed" examples/loader.expected
