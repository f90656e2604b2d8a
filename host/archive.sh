#!/usr/bin/env bash
# Proves the exports and writes target/staticlib/libphuyurik.a, for x86-64. Standard output has all that was said; standard
# error has only how far it is.
set -euo pipefail
cd "$(dirname "$0")/.."
exports='phuyurik phuyurik_runs phuyurik_masked'

# each is one module of machine code, in an object of its own
# shellcheck disable=SC2086
for export in $exports; do
    (cd "crates/$export" && rt lib)
done 2>&1 | ./host/progress.sh $exports

# one archive of all
mkdir -p target/staticlib
cd target/staticlib
rm -rf objects libphuyurik.a
mkdir objects
for export in $exports; do
    (cd objects && ar x "../../../crates/$export/out/lib$export.a")
done
ar rcs libphuyurik.a objects/*.o
