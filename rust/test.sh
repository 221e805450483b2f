#!/usr/bin/env bash
# Runs all tests of the crates with the library in the folder that BESTORE_LIB_DIR names, or ../c: the plain tests, the
# documentation's, clippy, rustfmt, and the tools that find memory errors. Whatever is missing is skipped, and a line says so.
#
# test.sh --build only builds the crates with their programs, and runs nothing. test.sh --compile compiles what the tests run, and
# runs nothing. test.sh --dependencies only compiles the third-party crates that they need, and prints nothing. The library
# needn't exist yet for that.
#
# The third-party crates come from Debian's packages librust-*-dev if these are installed, and otherwise from what cargo has already
# fetched. The script fetches nothing.
set -euo pipefail
cd "$(dirname "$0")"
debian=/usr/share/cargo/registry

skip() {
    echo "Rust: skipped, $1"
    exit 0
}

only=${1:-}
case $only in
    "" | --build | --compile) ;;
    --dependencies) exec >/dev/null 2>&1 ;;
    *) echo "rust/test.sh: $only isn't an option; it takes --build, --compile, --dependencies or nothing" >&2; exit 2 ;;
esac

command -v cargo >/dev/null || skip "there is no cargo"
BESTORE_LIB_DIR=$(realpath "${BESTORE_LIB_DIR:-../c}")
[ "$only" = --dependencies ] || [ -e "$BESTORE_LIB_DIR/libbestore.so" ] || skip "there is no libbestore.so in $BESTORE_LIB_DIR"
export BESTORE_LIB_DIR LD_LIBRARY_PATH="$BESTORE_LIB_DIR${LD_LIBRARY_PATH:+:$LD_LIBRARY_PATH}"
export CARGO_NET_OFFLINE=true CARGO_TARGET_DIR="${CARGO_TARGET_DIR:-$PWD/target}"

options=()
if compgen -G "$debian/libc-*" >/dev/null; then
    options=(--config 'source.crates-io.replace-with="debian"' --config "source.debian.directory=\"$debian\"")
fi
# The client for C has a folder of its own: builds of the whole workspace, which other tests may begin at any time, put SQLite into it.
client=$CARGO_TARGET_DIR/client
work=$(mktemp -d)
trap 'rm -rf "$work"' EXIT

# run WHAT ARGUMENT...: runs cargo with the arguments, and reports it as WHAT. The arguments after -- go to the program that cargo
# runs.
run() {
    local what=$1 all=() begin=$SECONDS
    shift
    all+=("$1")
    shift
    while [ $# -gt 0 ] && [ "$1" != -- ]; do
        all+=("$1")
        shift
    done
    if ! timeout -k 10 3000 cargo "${all[@]}" "${options[@]}" "$@" >"$work/said" 2>&1; then
        cat "$work/said" >&2
        echo "$what: failed, or not at its end after 3000 seconds" >&2
        exit 1
    fi
    local passed
    passed=$(sed -n 's/^test result: ok. \([0-9]*\) passed.*/\1/p' "$work/said" | paste -sd+ | sed 's/^$/0/')
    echo "$what: ok$([ "$passed" = 0 ] || echo ", $((passed)) tests passed"), in $((SECONDS - begin)) s"
    grep -h "skipped\|^killed\|^[0-9]* requests\|^[0-9]* runs" "$work/said" || true
}

# Cargo resolves the dependencies of all features, so without rusqlite it can't resolve anything. The crates for the log have
# empty replacements in absent/.
resolves() { cargo metadata --format-version 1 "${options[@]}" >/dev/null 2>"$work/said"; }
missing() { grep -m1 -o 'no matching package named.*\|searched package name.*' "$work/said" || tail -1 "$work/said"; }
features=saved,log
if ! resolves; then
    missing=$(missing)
    options+=(--config 'patch.crates-io.tokio.path="absent/tokio"')
    options+=(--config 'patch.crates-io.tokio-postgres.path="absent/tokio-postgres"')
    features=saved
    resolves || skip "a package is missing: $(missing)"
    echo "Rust, a log in PostgreSQL: skipped, a package is missing: $missing"
fi

case $only in
    --dependencies)
        # bestore-sys, and whatever needs it, isn't built in a folder without the library. --keep-going compiles the rest all the
        # same.
        for command in build clippy; do
            BESTORE_LIB_DIR=$work cargo $command --workspace --all-targets --features $features --keep-going "${options[@]}" || true
        done
        exit
        ;;
    --build)
        run "Rust, built" build --workspace --exclude bestore-client-c --features $features
        CARGO_TARGET_DIR=$client run "the client for C, built" build -p bestore-client-c
        exit
        ;;
    --compile)
        run "Rust, compiled" test --workspace --features $features --no-run
        CARGO_TARGET_DIR=$client run "the client for C, its release compiled" build --release -p bestore-client-c --lib --example costs
        run "Rust, compiled without features" test -p bestore-sys -p bestore-types -p bestore --lib --tests --no-run
        exit
        ;;
esac
run "Rust" test --workspace --features $features -- --show-output
run "Rust, without features" test -p bestore-sys -p bestore-types -p bestore --lib --tests
for example in first mailbox newest jobs; do
    run "Rust, example $example" run -q -p bestore --example $example
done
for expected in "run 1" "run 2"; do
    run "Rust, example kept" run -q -p bestore --features saved --example kept -- "$work/kept.bestore"
    grep -qx "$expected" "$work/said" || { echo "Rust, example kept: failed, it doesn't say $expected" >&2; exit 1; }
done
if cargo clippy --version >/dev/null 2>&1; then
    run "Rust, clippy" clippy --workspace --all-targets --features $features -- -D warnings
    run "Rust, clippy without a log" clippy -p bestored --all-targets -- -D warnings
else
    echo "Rust, clippy: skipped, there is no cargo clippy"
fi
if cargo fmt --version >/dev/null 2>&1; then
    cargo fmt --all --check && echo "Rust, fmt: ok"
else
    echo "Rust, fmt: skipped, there is no cargo fmt"
fi
RUSTDOCFLAGS="-D warnings" run "Rust, documentation" doc --workspace --no-deps --features $features

# Tests the client for Python with the server that was built above, a saved file that Rust and Python open in turn, and the decoders
# of batches.
if ! command -v python3 >/dev/null; then
    echo "Python, over the server: skipped, there is no python3"
elif [ ! -f "$(python3 -c 'import sysconfig; print(sysconfig.get_path("include"))')/Python.h" ]; then
    echo "Python, over the server: skipped, there is no Python.h"
else
    make -s -C ../python
    BESTORED=$(realpath "$CARGO_TARGET_DIR/debug/bestored")
    export BESTORED
    if ! (cd ../python && timeout -k 10 1500 env BESTORE_LIBRARY="$BESTORE_LIB_DIR/libbestore.so" PYTHONDONTWRITEBYTECODE=1 \
        python3 -W error -m unittest test_batches_alike test_connect test_connected_ends test_connected_pages test_connected_programs \
        test_connected_queries test_live test_repeats test_watches test_without_library \
        test_saved_processes.Processes.test_rust) >"$work/said" 2>&1; then
        cat "$work/said" >&2
        echo "Python, over the server: failed, or not at its end after 1500 seconds" >&2
        exit 1
    fi
    echo "Python, over the server: ok, $(sed -n 's/^Ran \([0-9]* tests\) in .*/\1/p' "$work/said")"
    # Small runs of the programs that measure large stores, which compare all answers after a backup, a restore and an import.
    for words in "million.py --files 20000 --stores bestore sqlite3" "imports.py --photos 100 --letters 500 --files 1000"; do
        # shellcheck disable=SC2086 # the words are separate
        if ! timeout -k 10 600 env BESTORE_LIBRARY="$BESTORE_LIB_DIR/libbestore.so" PYTHONPATH=../python PYTHONDONTWRITEBYTECODE=1 \
            python3 -W error ../bench/$words --programs "$CARGO_TARGET_DIR/debug" >"$work/said" 2>&1; then
            cat "$work/said" >&2
            echo "bench/${words%% *}: failed, or not at its end after 600 seconds" >&2
            exit 1
        fi
        echo "bench/${words%% *}: ok"
    done
    if ! command -v Xvfb >/dev/null || ! python3 -c 'import tkinter' 2>/dev/null; then
        echo "the query window, over the server: skipped, there is no Xvfb or python3 has no Tk"
    elif ! (cd ../python && timeout -k 10 1500 env BESTORE_LIBRARY="$BESTORE_LIB_DIR/libbestore.so" PYTHONDONTWRITEBYTECODE=1 \
        PYTHONPATH=.:window_tests python3 -W error -m unittest test_asker.OverServer test_window.OverServer \
        test_sixty_thousand.SixtyThousand.test_of_a_server) >"$work/said" 2>&1; then
        cat "$work/said" >&2
        echo "the query window, over the server: failed, or not at its end after 1500 seconds" >&2
        exit 1
    else
        echo "the query window, over the server: ok, $(sed -n 's/^Ran \([0-9]* tests\) in .*/\1/p' "$work/said")"
    fi
fi

# Tests the client for C and C++ with the server that was built above.
if ! command -v cc >/dev/null; then
    echo "the client for C: skipped, there is no cc"
else
    CARGO_TARGET_DIR=$client run "the client for C, built" build -p bestore-client-c
    CARGO_TARGET_DIR=$client run "the client for C, its release built" build --release -p bestore-client-c --lib --example costs
    # A stable compiler takes this option too if it is told to. Debian's proc-macro2 is too old for a nightly one.
    RUSTC_BOOTSTRAP=1 RUSTFLAGS="-Zsanitizer=address" CARGO_TARGET_DIR=$client/address \
        run "the client for C, built with AddressSanitizer" build -p bestore-client-c --target "$(rustc -vV | sed -n 's/^host: //p')"
    bestore-client-c/test.sh "$client" "$CARGO_TARGET_DIR/debug/bestored"
fi

# Checks what the clients of killed servers have seen, with scripts that share no code with the server.
if ! command -v python3 >/dev/null; then
    echo "histories of servers: skipped, there is no python3"
elif ! (cd bestored/history && timeout -k 10 1500 env BESTORED="$(realpath "$CARGO_TARGET_DIR/debug/bestored")" PYTHONDONTWRITEBYTECODE=1 \
    python3 -W error -m unittest -v test_history) >"$work/said" 2>&1; then
    cat "$work/said" >&2
    echo "histories of servers: failed, or not at its end after 1500 seconds" >&2
    exit 1
else
    echo "histories of servers: ok, $(sed -n 's/^Ran \([0-9]* tests\) in .*/\1/p' "$work/said")"
    grep -h "skipped '" "$work/said" || true
fi

# Tests how the library is found: by pkg-config, as an archive, and not at all.
found="$CARGO_TARGET_DIR/found"
if command -v pkg-config >/dev/null; then
    version=$(sed -n 's/^version = "\(.*\)"$/\1/p' bestore-sys/Cargo.toml)
    printf 'Name: bestore\nDescription: bestore\nVersion: %s\nLibs: -L%s -lbestore\n' "$version" "$BESTORE_LIB_DIR" \
        >"$work/bestore.pc"
    CARGO_TARGET_DIR=$found PKG_CONFIG_PATH=$work BESTORE_LIB_DIR="" run "Rust, pkg-config" test -p bestore-sys
else
    echo "Rust, pkg-config: skipped, there is no pkg-config"
fi
if [ -e "$BESTORE_LIB_DIR/libbestore.a" ]; then
    CARGO_TARGET_DIR=$found BESTORE_STATIC=1 run "Rust, archive" test -p bestore-sys
fi
if CARGO_TARGET_DIR=$found BESTORE_LIB_DIR=$work cargo check -q -p bestore-sys "${options[@]}" >"$work/said" 2>&1 ||
    ! grep -q "neither libbestore.so nor libbestore.a is in $work, the folder that BESTORE_LIB_DIR names" "$work/said"; then
    cat "$work/said" >&2
    echo "Rust, no library: failed, the build says nothing of it" >&2
    exit 1
fi
echo "Rust, no library: ok"

# A nightly compiler has AddressSanitizer. It also watches the library's memory, since it replaces malloc. ThreadSanitizer would
# need the standard library and libbestore to be built with it. Debian's ahash, which rusqlite needs, is too old for a nightly
# compiler.
host=$(rustc -vV | sed -n 's/^host: //p')
if cargo +nightly --version >/dev/null 2>&1; then
    RUSTFLAGS="-Zsanitizer=address" CARGO_TARGET_DIR="$CARGO_TARGET_DIR/address" \
        run "Rust, AddressSanitizer" +nightly test -p bestore --tests --target "$host"
else
    echo "Rust, AddressSanitizer: skipped, there is no nightly toolchain"
fi
if command -v valgrind >/dev/null; then
    runner="valgrind -q --fair-sched=try --leak-check=full --show-leak-kinds=definite --errors-for-leak-kinds=definite --error-exitcode=9"
    host=${host//-/_}
    export "CARGO_TARGET_${host^^}_RUNNER=$runner"
    run "Rust, valgrind" test -p bestore --test reading --test writing --test forked
else
    echo "Rust, valgrind: skipped, there is no valgrind"
fi
