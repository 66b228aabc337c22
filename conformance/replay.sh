#!/bin/sh
# Builds conformance/replay.c against the static library (host/build) and compares what it prints of each file of the corpus with the file.
set -eu
cd "$(dirname "$0")/.."
folder=$(mktemp -d)
trap 'rm -rf "$folder"' EXIT
host/build conformance/replay.c "$folder/replay"
for cases in conformance/*.cases; do
    "$folder/replay" < "$cases" > "$folder/printed"
    diff "$cases" "$folder/printed"
    echo "$cases: $(grep -c '' "$cases") cases, no difference"
done
