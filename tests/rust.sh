#!/usr/bin/env bash
# The Rust crate over the radio library. It catches an answer, or a byte in a lent buffer, that differs from what the reference codec says of
# the same input; a warning; a layout that is not rustfmt's; and a README whose Rust lines do not run as they stand or print something else.
set -u
cd "$(dirname "$0")/.." || exit 2
export PATH=$PATH:$HOME/.cargo/bin
command -v cargo >/dev/null || apt-get install -y cargo >/dev/null 2>&1 || { echo "no cargo, and Debian's cannot be installed: the Rust crate cannot be tried"; exit 1; }
said=$(mktemp)
trap 'rm -f "$said"' EXIT
unset YAXOPETZO_LIB

# Says what a command printed only where it failed.
quietly() { # WHAT COMMAND..
  local what=$1
  shift
  "$@" >"$said" 2>&1 && return
  echo "$what:"
  tail -n 60 "$said"
  exit 1
}

# The calls that take and give a record by value are not needed: the face has those that are lent one.
for call in $(grep -o '\byaxo_[a-z_]*(' include/yaxopetzo.h | tr -d '(' | sort -u | grep -vxE 'yaxo_hear|yaxo_masts_hear|yaxo_record_note|yaxo_replay'); do
  grep -q "fn $call(" rust/src/ffi/header.rs || { echo "the Rust face lacks $call"; exit 1; }
done

quietly "no archive of the radio library" tools/native-archive
export RUSTFLAGS="-D warnings"
manifest=(--manifest-path rust/Cargo.toml --offline --locked)
quietly "the Rust crate and the reference differ" cargo test -q --release "${manifest[@]}" --workspace
# The figures need a Rust with `black_box`, which is newer than Debian's.
minor=$(rustc --version | sed 's/^rustc 1\.\([0-9]*\).*/\1/')
[ "$minor" -lt 70 ] || quietly "the figures do not compile" cargo build -q --release "${manifest[@]}" --benches
if cargo fmt --version >/dev/null 2>&1; then
  quietly "not in rustfmt's layout" cargo fmt --manifest-path rust/Cargo.toml --all --check
fi
if cargo clippy --version >/dev/null 2>&1; then
  quietly "clippy has something to say" cargo clippy -q --release "${manifest[@]}" --workspace --all-targets -- -D warnings
fi

# The README's lines as a program of their own.
trial=rust/target/readme
mkdir -p "$trial/src"
cat >"$trial/Cargo.toml" <<'END'
[package]
name = "readme"
edition = "2021"
[dependencies]
yaxopetzo = { path = "../.." }
[workspace]
END
awk '/^## / { here = $0 == "## Use it from Rust" } here && /^```rust$/ { inside = 1; next } /^```$/ { inside = 0 } inside' README.md >"$trial/src/main.rs"
[ -s "$trial/src/main.rs" ] || { echo "README.md has no Rust lines under 'Use it from Rust'"; exit 1; }
quietly "the README's Rust lines do not run" cargo run -q --offline --manifest-path "$trial/Cargo.toml" --target-dir rust/target
[ -s "$said" ] && grep -qF "$(cat "$said")" README.md || { echo "the README does not say what its Rust lines print: $(cat "$said")"; exit 1; }
