#!/bin/bash
# run.sh short|long|bench [--standin]: the comparison of the product with the independent program.
#
#   short   unit tests and a small comparison, for the gate
#   long    the full comparison, then the wrong programs that it must find
#   bench   times of the product beside the baseline's
#
# The product comes from target/staticlib/libcapi.a and liblot_plan.a and target/bin/sheet and
# plan (`bash tools/build`).
# --standin puts the baseline behind the same interface, to try all this without the product.
set -euo pipefail
here=$(cd "$(dirname "$0")" && pwd)
root=$(cd "$here/.." && pwd)
export CARGO_TARGET_DIR=$root/target/compare
built=$CARGO_TARGET_DIR/release
feature=harness/product
programs=$root/target/bin
if [ "${2:-}" = --standin ]; then
    feature=harness/standin
    programs=$CARGO_TARGET_DIR/standin-bin
fi
cd "$here"
cargo build --quiet --offline --release -p baseline -p harness --features $feature
if [ "${2:-}" = --standin ]; then
    mkdir -p "$programs"
    cp "$built/baseline-sheet" "$programs/sheet"
    cp "$built/baseline-plan" "$programs/plan"
fi
case "${1:-}" in
short)
    cargo test --quiet --offline --release -p paper -p harness --features $feature >"$CARGO_TARGET_DIR/tests.log" 2>&1 ||
        { cat "$CARGO_TARGET_DIR/tests.log"; exit 1; }
    "$built/compare" --short --programs "$programs"
    ;;
long)
    "$built/compare" --long --programs "$programs"
    "$built/mutants"
    ;;
bench)
    "$built/bench" --programs "$programs"
    ;;
*)
    sed -n '2,10s/^# \{0,1\}//p' "$0"
    exit 2
    ;;
esac
