# Sourced by the commands of this folder: finds the Rust and builds what is
# missing or older than its sources. Output goes to $ORACLE_OUT (outside git).

here=$(cd "$(dirname "${BASH_SOURCE[0]}")" && pwd)
root=$(dirname "$here")
out=${ORACLE_OUT:-$root/target/oracle}
sum=eaf355c307cc33f9d4682182e88ed4385af6c4eaadfb2b2b043147356ac86d2c

say() { echo "oracle: $*" >&2; }

# The file itself, or the file in a folder, under its own name or the shelf's.
in_place() {
    local name
    [ -f "$1" ] && { echo "$1"; return; }
    for name in param.rs src--src--param.rs.txt; do
        [ -f "$1/$name" ] && { echo "$1/$name"; return; }
    done
    return 1
}

# The Rust: what was named (argument or PARAM_RS), else the two usual places.
find_rust() {
    local named=${1:-${PARAM_RS:-}} found
    if [ -n "$named" ]; then
        found=$(in_place "$named")
    else
        found=$(in_place "$root/docs/src" || in_place "$root/../shared/docs/src")
    fi
    if [ -z "$found" ]; then
        say "no param.rs${named:+ at $named}; get it: github.com/orottier/web-audio-api-rs," \
            "src/param.rs at commit 6e2a7763ce, and name its path"
        return 1
    fi
    if [ "$(sha256sum < "$found")" != "$sum  -" ]; then
        say "$found is not src/param.rs of commit 6e2a7763ce (its sha256 is not $sum)"
        return 1
    fi
    echo "$found"
}

# fresh TARGET SOURCES..: the target is there and none of the sources is newer.
fresh() {
    local target=$1 source
    shift
    [ -f "$target" ] || return 1
    for source; do [ "$source" -nt "$target" ] && return 1; done
    return 0
}

compile() {
    command -v rustc > /dev/null || { say "no rustc here; it is needed to build"; return 1; }
    rustc --edition 2021 -O -L "$out" "$@"
}

# compile_library NAME ROOT WORDS..: WORDS name the libraries that it uses.
compile_library() {
    local name=$1 source=$2
    shift 2
    compile --crate-type rlib --crate-name "$name" "$@" -o "$out/lib$name.rlib" "$source"
}

# The unchanged file with one line behind it, over the stand-ins.
build_oracle() {
    local rust source=$out/source
    rust=$(find_rust "${1:-}") || return 1
    fresh "$out/oracle" "$rust" "$here"/src/oracle/*.rs "$here/build.sh" && return
    say "building the Rust original from $rust"
    mkdir -p "$source" && cp "$here"/src/oracle/*.rs "$source" || return 1
    { cat "$rust" && echo '#[path = "driver.rs"] pub(crate) mod driver;'; } > "$source/param.rs"
    compile_library arrayvec "$source/arrayvec.rs" && compile_library log "$source/log.rs" &&
    compile --extern arrayvec --extern log --crate-name oracle -o "$out/oracle" "$source/main.rs"
}

# The interpreter of 01 and of what has landed of 02, a library that the other programs use too.
build_reference() {
    fresh "$out/reference" "$here"/src/reference/*.rs "$here/src/oracle/session.rs" && return
    say "building the reference interpreter"
    mkdir -p "$out" && compile_library reference "$here/src/reference/lib.rs" &&
    compile --extern reference --crate-name main -o "$out/reference" "$here/src/reference/main.rs"
}

# What the other programs share.
build_comparing() {
    build_reference || return 1
    fresh "$out/libcomparing.rlib" "$out/reference" "$here"/src/comparing/*.rs && return
    compile_library comparing "$here/src/comparing/lib.rs" --extern reference
}

# build_program NAME: the program in src/NAME, over the two.
build_program() {
    build_comparing || return 1
    fresh "$out/$1" "$out/libcomparing.rlib" "$here/src/$1"/*.rs && return
    say "building $1"
    compile --extern reference --extern comparing --crate-name main \
        -o "$out/$1" "$here/src/$1/main.rs"
}

# The port's session program: what CRACKLEDRAY_SESSION names, else the one that tools/build proves and builds.
find_port() {
    local port=${CRACKLEDRAY_SESSION:-}
    if [ -z "$port" ]; then
        command -v rt > /dev/null || {
            say "no rt here (the Rattle kit): it builds the port's session program;" \
                "or name one that is built in CRACKLEDRAY_SESSION"
            return 1
        }
        say "building the port: tools/build session (proves what is not proved yet)"
        port=$("$root/tools/build" session) || { say "tools/build session failed"; return 1; }
    fi
    [ -x "$port" ] || { say "no program at $port"; return 1; }
    echo "$port"
}

# The port's program `play`: what CRACKLEDRAY_PLAY names, else the one that is built.
find_play() {
    local play=${CRACKLEDRAY_PLAY:-$root/crates/play/out/play}
    [ -x "$play" ] || {
        say "no program at $play; get it: tools/build play (proves and builds it)," \
            "or name one that is built in CRACKLEDRAY_PLAY"
        return 1
    }
    echo "$play"
}
