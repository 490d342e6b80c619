# Functions shared by ./run and ./test, sourced with the repository's root as current folder.

export CARGO_TARGET_DIR="$PWD/target/rust"
judge="$CARGO_TARGET_DIR/release/rufsm"
chartlist=crates/chartlist/out/chartlist

say() { printf '%s\n' "$*"; }

red() {
    printf 'red: %s\n' "$*" >&2
    exit 1
}

need() {
    command -v "$1" >/dev/null 2>&1 || red "$1 is not on PATH ($2)"
}

# Sets RUFSM_SRC to the folder of the Rust reference, absolute; false where it is not at hand.
find_reference() {
    local folder="${RUFSM_SRC:-../shared/docs/src}"
    [ -f "$folder/scxml_reader.rs" ] || return 1
    RUFSM_SRC=$(cd "$folder" && pwd)
    export RUFSM_SRC
}

build_judge() {
    cargo build --release --quiet -p rufsm
    [ -x "$judge" ] || red "cargo built no $judge"
}

# Proves and builds the program chartlist; quick where nothing has changed. Only `rt run` builds a program, so it runs here too, on no input.
build_chartlist() {
    local log=target/chartlist.log
    need rt "the Rattle toolchain"
    mkdir -p target
    [ -x "$chartlist" ] || say "Building chartlist: the crates that it stands on are proved first. From a fresh clone that takes some minutes; a line follows for each."
    (cd crates/chartlist && rt run) </dev/null 2>&1 >/dev/null | tee "$log" | awk '/^rt: chose/ { print; fflush() }' || { tail -n 20 "$log"; red "rt run in crates/chartlist"; }
}
