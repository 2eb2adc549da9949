# Rust: programs of their own that have the packed crate as a dependency, without a network. bindings/try sources this.

export CARGO_NET_OFFLINE=true CARGO_TARGET_DIR=$room/target RUSTFLAGS='-D warnings'

# make_program NAME FEATURES: the program of tests/rust/NAME.rs, built with the library that `find`, the environment, finds.
make_program() {
    mkdir -p "rust_$1/src" && cp "$tests/rust/$1.rs" "rust_$1/src/main.rs" || return 1
    cat >"rust_$1/Cargo.toml" <<END
[package]
name = "$1"
version = "0.1.0"
edition = "2021"

[dependencies]
serde_qs_proved = { path = "$room/crate", features = [$2] }
${3-}
END
    (cd "rust_$1" && env "${find[@]}" cargo build -q --release) && cp "target/release/$1" "rust_$1/program"
}

# The crate's examples, and a program with the user's own types. Debian's packages of serde and serde_json are the only ones that are taken.
try_serde() {
    local registry=/usr/share/cargo/registry
    [ -d "$(echo "$registry"/serde_json-*)" ] || { echo '  there is no serde_json of Debian: neither the feature serde nor the examples of the crate are tried'; return; }
    mkdir -p .cargo
    printf '[source.crates-io]\nreplace-with = "debian"\n[source.debian]\ndirectory = "%s"\n' "$registry" >.cargo/config.toml
    runs 'Rust with serde' make_program typed '"serde"' 'serde = { version = "1", features = ["derive"] }' || return
    same "Rust's types, read and written" "$(./rust_typed/program 2>&1)" "$(cat "$tests/rust/typed.txt")"
    runs "the crate's examples" env -C crate "${find[@]}" cargo test -q --doc --all-features
    runs "the crate's documentation, without the library" env -C crate SERDE_QS_DIR=/none RUSTDOCFLAGS='-D warnings' cargo doc -q --no-deps --all-features
}

# A library that changes is linked anew, into a program that is not.
try_relinking() {
    local before
    before=$(stat -c %Y.%s "target/release/$1")
    sleep 1
    touch "$prefix/lib/libserde_qs.a"
    runs 'Rust, a library that has changed' env -C "rust_$1" "${find[@]}" cargo build -q --release
    [ "$(stat -c %Y.%s "target/release/$1")" != "$before" ] && pass || fail 'Rust: a library that has changed is not linked'
}

try_rust() {
    local find=(-u LD_LIBRARY_PATH)
    runs 'Rust, by pkg-config' make_program cases '' || return
    try_language Rust env -u LD_LIBRARY_PATH ./rust_cases/program
    try_relinking cases
    find=(-u PKG_CONFIG_PATH SERDE_QS_DIR="$prefix" SERDE_QS_SHARED=1)
    runs 'Rust, by SERDE_QS_DIR, shared' make_program cases '' || return
    try_language 'Rust, shared' ./rust_cases/program
    find=(-u PKG_CONFIG_PATH SERDE_QS_DIR="$prefix/none")
    ! make_program cases "" >unbuilt 2>&1 && pass || fail 'Rust is built without the library'
    runs 'Rust without the library says what is missing' grep -q 'set SERDE_QS_DIR' unbuilt
    find=(-u PKG_CONFIG_PATH PKG_CONFIG_LIBDIR="$room")
    ! make_program cases "" >unbuilt 2>&1 && pass || fail 'Rust is built without a package'
    runs 'Rust without the library says what pkg-config said' grep -q 'pkg-config: .*serde_qs' unbuilt
    find=(SERDE_QS_DIR="$prefix")
    try_serde
}

if command -v cc >/dev/null && command -v cargo >/dev/null; then
    mkdir crate && tar -xzf "$packages"/*.crate -C crate --strip-components 1
    try_rust
else
    echo '  there is no cargo, or no cc for it to link with: the Rust crate is not tried'
fi
unset RUSTFLAGS
