#!/bin/sh
# Tries the comparison harness on the mock: it must pass on the clean one and
# find every fault that can be planted, or those of them that FAULTS names.
# Faults of the listing program, whose names say so, are put to `listings`, all
# others to `compare`. Arguments go to these; without any, the quick run is taken.
# Needs more than half a minute for each fault, some two hours for all.
set -eu
cd "$(dirname "$0")/.."
[ $# -gt 0 ] || set -- --quick

cargo build -j1 --quiet --release --manifest-path mock/Cargo.toml
GWZ_LIB_DIR=${CARGO_TARGET_DIR:-mock/target}/release \
    cargo build -j1 --quiet --release --features linked --bin compare --bin listings
compare=${CARGO_TARGET_DIR:-target}/release/compare
listings=${CARGO_TARGET_DIR:-target}/release/listings
listing=${CARGO_TARGET_DIR:-mock/target}/release/listing

# The sections that found differences, with the number of cases.
findings() {
    sed -n 's/^\(.*[^ ]\)  *[0-9]* cases  *\([1-9][0-9]*\) different$/\1 \2/p' | paste -s -d ';' -
}

missed=0
if report=$("$compare" "$@"); then
    echo "clean: $(echo "$report" | tail -n 1)"
else
    echo "clean: NOT PASSED"
    missed=1
fi
if report=$("$listings" "$@" "$listing"); then
    echo "clean listing: $(echo "$report" | tail -n 1)"
else
    echo "clean listing: NOT PASSED"
    missed=1
fi
for fault in ${FAULTS:-$(FAULT='?' "$compare" 2>&1 >/dev/null || true)}; do
    case $fault in
    listing_*)
        if report=$(FAULT=$fault "$listings" "$@" "$listing"); then
            echo "$fault: NOT FOUND"
            missed=1
        else
            echo "$fault: listings, $(echo "$report" | tail -n 1)"
        fi
        continue
        ;;
    esac
    if report=$(FAULT=$fault "$compare" "$@"); then
        echo "$fault: NOT FOUND"
        missed=1
    else
        echo "$fault: $(echo "$report" | findings)"
    fi
done
exit $missed
