# Sourced by the commands of this folder: finds the Rust as oracle/ does, and builds what links the port's archive.

. "$(dirname "${BASH_SOURCE[0]}")/../oracle/build.sh"
cd "$root" || exit 1
out=$root/target/speed
mkdir -p "$out" || exit 1

say() { echo "speed: $*" >&2; }

# archive NAME: proves the crate and writes its static library.
archive() {
    command -v rt > /dev/null || { say "no rt here (the Rattle kit): it proves and builds the port"; return 1; }
    say "proving what is not proved yet, and building $1"
    library=$("$root/library/archive" "$1" 2> "$out/$1.log") || { tail -5 "$out/$1.log" >&2; return 1; }
}

# link PROGRAM NAME WORDS..: the Rust program over the archive of the crate NAME.
link() {
    local program=$1 name=$2
    shift 2
    command -v rustc > /dev/null || { say "no rustc here; it is needed to build"; return 1; }
    rustc --edition 2021 -O "$root/speed/$program.rs" -L "$(dirname "$library")" -l "static=$name" -o "$out/$program" "$@"
}

# The Rust's four sample functions, cut out of its file as they stand.
build_samples() {
    local rust
    rust=$(find_rust "${1:-}") || return 1
    awk '/^#\[inline\(always\)\]$/ { taken = 1 } taken; /^}$/ { taken = 0 }' "$rust" > "$out/rust.rs" &&
    archive samples_c && RUST_SAMPLES=$out/rust.rs link samples samples_c
}
