#!/bin/sh
# Builds libwodzerim.a, the exported functions, each proved and compiled, for the processor of this machine or for the one that PROCESSOR names (x86_64,
# aarch64). For this machine it is build/libwodzerim.a, for another one build/PROCESSOR/libwodzerim.a.
set -eu
cd "$(dirname "$0")/.."
me=lib
. scripts/kit.sh

# All that is exported comes out of one crate, so that the archive holds each function below once.
exporting=$(exporting_crate)
# shellcheck disable=SC2086
rt_in "$exporting" lib $target || fail "crate $exporting was not built; build/lib.txt has all that was said"
cp "crates/$exporting/out/lib$exporting.a" "$work/libwodzerim.a"
check_processor "$work/libwodzerim.a"
mv "$work/libwodzerim.a" "$out/libwodzerim.a"
echo "${out#"$PWD"/}/libwodzerim.a: $exporting for $PROCESSOR"
