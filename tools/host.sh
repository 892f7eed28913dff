#!/usr/bin/env bash
# host.sh [FILES]: tests what other languages use: the Rust crate, C and Python over libsozgarru.a. FILES: how many random event files go through the crate
# beside the published Rust (300). Needs cargo; leaves nothing in the tree.
#
#     bash tools/host.sh                                # tests the shipped archive
#     (cd crates/boundary_c && rt lib)                        # writes crates/boundary_c/out/libboundary_c.a
#     LIB=crates/boundary_c/out bash tools/host.sh            # the same tests; the archive of the folder LIB must be the shipped one
#     LIB=crates/boundary_c/out bash tools/host.sh --renew    # ships it: host/rust/native/libsozgarru.a and its sha256
#
# The archive of LIB is its libboundary_c.a or its libsozgarru.a. CARGO_TARGET_DIR is used if it is set.
set -euo pipefail
cd "$(dirname "$0")/.."
shipped=host/rust/native
began=$SECONDS

fail() {
    echo "host: $*" >&2
    exit 1
}

# says what was done and in how many seconds
told() {
    echo "host: $* ($((SECONDS - began)) s)"
    began=$SECONDS
}

# the path of LIB's archive
built() {
    local found=()
    for name in libboundary_c.a libsozgarru.a; do
        [ ! -f "$LIB/$name" ] || found+=("$LIB/$name")
    done
    [ ${#found[@]} = 1 ] || fail "LIB: $LIB has ${#found[@]} of libboundary_c.a and libsozgarru.a, and should have one"
    echo "${found[0]}"
}

renew() {
    [ -n "${LIB:-}" ] || fail "LIB names the folder of the archive to ship"
    local archive
    archive=$(built)
    cp "$archive" "$shipped/libsozgarru.a"
    (cd "$shipped" && sha256sum libsozgarru.a >libsozgarru.a.sha256)
    echo "host: shipped $(cut -c1-16 "$shipped/libsozgarru.a.sha256").., which is $archive"
}

if [ "${1:-}" = --renew ]; then
    renew
    exit
fi
files=${1:-300}
command -v cargo >/dev/null || fail "there is no cargo"

room=$(mktemp -d)
trap 'rm -rf "$room"' EXIT
export CARGO_TARGET_DIR=$(realpath -m "${CARGO_TARGET_DIR:-$room/target}")
export PYTHONDONTWRITEBYTECODE=1 XDG_CACHE_HOME=$room/cache RUSTDOCFLAGS='-D warnings'
unset SOZGARRU_SO

# the archive that is tested is the shipped one
(cd "$shipped" && sha256sum --check --quiet libsozgarru.a.sha256) || fail "$shipped/libsozgarru.a is not the one of its sha256"
if [ -n "${LIB:-}" ]; then
    archive=$(built)
    cmp -s "$archive" "$shipped/libsozgarru.a" || fail "$archive is not the shipped one: LIB=$LIB bash tools/host.sh --renew ships it"
    export SOZGARRU_LIB_DIR=$room/built
    mkdir "$SOZGARRU_LIB_DIR"
    cp "$archive" "$SOZGARRU_LIB_DIR/libsozgarru.a"
    told "the archive just built is the shipped one, $(cut -c1-16 "$shipped/libsozgarru.a.sha256").."
else
    unset SOZGARRU_LIB_DIR
    told "LIB is not set: the shipped archive is tested, and compared with none"
fi
archive=${SOZGARRU_LIB_DIR:-$shipped}/libsozgarru.a

# every stored event file, as the tests read it
mkdir "$room/cases"
python3 host/pairs.py "$room/cases" cases/*.txt cases/rust/*.txt examples/*.txt
export SOZGARRU_CASES=$room/cases

crate() {
    (cd host/rust && cargo "$1" --offline --locked --quiet "${@:2}")
}

# runs a command; what it said is shown where it failed
quietly() {
    "$@" >"$room/said" 2>&1 || {
        cat "$room/said"
        return 1
    }
}

# one program's output is the stored one
same() {
    local stored=$1
    shift
    "$@" >"$room/stdout" || fail "$* ended badly"
    cmp -s "$room/stdout" "$stored" || {
        diff "$stored" "$room/stdout" || true
        fail "$* does not print $stored"
    }
}

if command -v gcc >/dev/null; then
    export SOZGARRU_PYTHON_SNAPSHOT=$room/snapshot
    PYTHONPATH=host/python python3 -c '
import sys, sozgarru
s = sozgarru.Session()
s.coroutine(7), s.call(), s.pending(0), s.gather(0, 1, 0), s.await_object(2), s.complete(40)
sys.stdout.buffer.write(s.snapshot())' >"$SOZGARRU_PYTHON_SNAPSHOT"
fi
quietly crate test --release || fail "a test of the crate fails (optimised)"
cases=("$room"/cases/*.bin)
told "cargo test --release: ${#cases[@]} stored cases, doc tests"
quietly crate test --tests stack || fail "a case needs more stack than docs/HOST.md says (not optimised)"
told "cargo test: the documented stack, not optimised"

for part in fmt clippy; do
    if ! cargo $part --version >/dev/null 2>&1; then
        echo "host: NOT done: there is no cargo $part"
    elif [ $part = fmt ]; then
        (cd host/rust && cargo fmt --check) || fail "run cargo fmt in host/rust"
        told "cargo fmt --check"
    else
        quietly crate clippy --all-targets -- -D warnings || fail "clippy has something to say"
        told "cargo clippy"
    fi
done
quietly crate doc --no-deps || fail "cargo doc warns"
told "cargo doc"

quietly crate build --release --examples || fail "an example does not build"
programs=$CARGO_TARGET_DIR/release/examples
for example in projection late_replies cancel eight_members; do
    same host/stdout/$example.txt "$programs/$example"
done
"$programs/projection" "$room/trace" >/dev/null && "$programs/records" <"$room/trace" >"$room/lines" || fail "the projection writes no trace"
[ "$(tail -n 1 "$room/lines")" = "24 finished plain 1678950" ] || fail "the projection's trace does not replay: $(tail -n 1 "$room/lines")"
told "the examples in Rust, and a trace replayed"

if command -v gcc >/dev/null; then
    gcc -std=c11 -Wall -Wextra -Werror -o "$room/worked" host/c/worked.c "$archive" || fail "host/c/worked.c does not compile"
    same host/c/worked.stdout "$room/worked"
    told "the worked example in C"
    quietly python3 host/python/sozgarru.py || fail "an example in host/python/sozgarru.py fails"
    quietly python3 -m doctest host/python/script_host.py || fail "an example in host/python/script_host.py fails"
    if XDG_CACHE_HOME=/dev/null python3 host/python/sozgarru.py 2>"$room/said" || ! tail -n 1 "$room/said" | grep -q XDG_CACHE_HOME; then
        fail "a cache folder that cannot be made is not told"
    fi
    for example in projection late_replies cancel eight_members; do
        same host/stdout/$example.txt python3 host/python/$example.py
    done
    python3 host/python/replay.py "$room/cases" >"$room/said" || fail "$(cat "$room/said")"
    told "Python: its doctest, the examples, $(cat "$room/said")"
else
    echo "host: NOT done: there is no gcc for C and Python"
fi

if [ -d "${MONTY_SRC:-../shared/docs/src}" ]; then
    printf '#!/bin/sh\nexec "%s" --checked\n' "$programs/records" >"$room/checked"
    chmod +x "$room/checked"
    for program in "$programs/records" "$room/checked"; do
        bash harness/compare.sh 2 "$files" "$program" >"$room/said" || {
            cat "$room/said"
            fail "the crate and the published Rust differ"
        }
        told "beside the published Rust, $(basename "$program"): $(head -n 1 "$room/said")"
    done
else
    echo "host: NOT compared with the published Rust: there is no ${MONTY_SRC:-../shared/docs/src}"
fi
echo "host: all done ($SECONDS s)"
