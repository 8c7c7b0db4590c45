# Where things are, for the scripts of the repository; they set `root` and then read this file.
# shellcheck shell=sh disable=SC2034,SC2154

# The built programs, for the tests and the benchmark; git ignores this folder.
programs=$root/target/bin

# Where rustup has put cargo, in case nobody told the PATH.
command -v cargo >/dev/null || PATH=$PATH:${HOME-}/.cargo/bin

# cargo builds these; both folders are ignored by git.
oracle=$root/oracle/target/release/oracle
end_to_end=$root/tests/target/release/tests

# Builds the crate of plain Rust in the folder $1, without a network.
build_rust() {
    cargo build --release --offline --quiet --manifest-path "$root/$1/Cargo.toml"
}

# Proves and builds the program $1 of crates/ into the folder of programs; little is proved again where nothing has changed.
# rt builds a program only to run it: it is run once, without input, and what it then says goes nowhere.
build_program() {
    made=$root/crates/$1/out/$1
    (cd "$root/crates/$1" && rt check) || return 1
    rm -f "$made"
    (cd "$root/crates/$1" && rt run </dev/null >/dev/null 2>&1) || true
    mkdir -p "$programs"
    cp "$made" "$programs/$1"
}
