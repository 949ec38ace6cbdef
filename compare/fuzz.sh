#!/bin/bash
# fuzz.sh [--standin] [SECONDS]: libFuzzer on the sheet, the plan and the lot plan entry of the C interface, with the
# independent program as oracle, so many seconds for each (60 if not said). Prints executions, paths,
# crashes and mismatches, and ends with 1 where there was any. --standin tries it without the product.
#
# The product's archives are not instrumented; the oracle is, so its branches guide the fuzzer. It starts from
# SEEDS sheets, plans and lot plans of the generator (200 if not said; 0 leaves it the dictionary alone).
set -euo pipefail
here=$(cd "$(dirname "$0")" && pwd)
root=$(cd "$here/.." && pwd)
features=()
folder=${SWIVELCRANE_LIB:-$root/target/staticlib}
archives="$folder/libcapi.a $folder/liblot_plan.a"
if [ "${1:-}" = --standin ]; then
    features=(--features oracle/standin)
    archives=
    shift
fi
seconds=${1:-60}
work=$root/target/compare/fuzz
target=x86_64-unknown-linux-gnu

cd "$here"
CARGO_TARGET_DIR=$root/target/compare cargo build --quiet --offline --release -p harness --bin seeds
coverage="-Cpasses=sancov-module -Ccodegen-units=1 -Cpanic=abort"
for option in level=4 inline-8bit-counters pc-table trace-compares; do
    coverage+=" -Cllvm-args=-sanitizer-coverage-$option"
done
# A target by name keeps the flags from build scripts.
RUSTFLAGS=$coverage CARGO_TARGET_DIR=$work/build \
    cargo build --quiet --offline --release --target $target -p oracle ${features[@]+"${features[@]}"}
oracle=$work/build/$target/release/liboracle.a

rm -rf "$work/corpus" "$work/found"
"$root/target/compare/release/seeds" "$work/corpus" "${SEEDS:-200}"
bad=0
for name in sheet plan lot; do
    plan=$([ $name = plan ] && echo 1 || echo 0)
    source=$([ $name = lot ] && echo lot.c || echo fuzz.c)
    clang -O2 -fsanitize=fuzzer -DPLAN=$plan oracle/$source "$oracle" $archives -lpthread -ldl -lm -o "$work/fuzz-$name"
    mkdir -p "$work/found/$name"
    status=0
    "$work/fuzz-$name" -max_total_time="$seconds" -max_len=4096 -timeout=10 -use_value_profile=1 \
        -dict=oracle/lines.dict -artifact_prefix="$work/found/$name/" -print_final_stats=1 \
        "$work/corpus/$name" >"$work/$name.log" 2>&1 || status=$?
    executions=$(sed -n 's/^stat::number_of_executed_units: *//p' "$work/$name.log")
    # A run that ends on one of the seeds prints no such line.
    last=$(grep -E ' cov: [0-9]+' "$work/$name.log" | tail -1 || true)
    edges=$(sed -nE 's/.* cov: ([0-9]+).*/\1/p' <<<"$last")
    paths=$(sed -nE 's/.* corp: ([0-9]+).*/\1/p' <<<"$last")
    crashes=$(find "$work/found/$name" -type f | wc -l)
    mismatches=$(grep -c '^MISMATCH' "$work/$name.log" || true)
    echo "fuzz $name: $executions executions in $seconds s, ${edges:-0} edges of the oracle, ${paths:-0} paths kept, $crashes crashes, $mismatches mismatches"
    if [ $status -ne 0 ] || [ "$crashes" -ne 0 ]; then
        grep -A3 '^MISMATCH' "$work/$name.log" | cut -c1-2000 || tail -5 "$work/$name.log"
        bad=1
    fi
done
exit $bad
