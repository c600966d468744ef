# oracle/rust.sh has what oracle/run, oracle/store, bench/run, host/test and the other commands beside them share. It is
# sourced, with `root` (the repository) and `me` (the command) set. It builds Rust beside the static libraries, which
# are x86-64 code. It writes below target/ alone.

out=$root/target/oracle
# cargo's release profile: opt-level 3, no fast-math, no target features beyond x86-64's own
flags='--edition 2021 -C opt-level=3'
# O1. The original's sin, cos and powf are the port's own three (`port`); `std` leaves it the standard library's
elementary=port

export RUST_BACKTRACE=0

missing() { echo "$me: $1" >&2; exit 2; }
failed() { echo "$me: $1" >&2; exit 1; }

# Names what is missing before anything is made.
find_all() {
    find_kit
    for f in lib modulation; do
        [ -f "$(original_file "$f")" ] || missing "the original is not at ${WOW_SRC:-../shared/docs/src}: set WOW_SRC to the folder that has crates/wow-dsp/src/$f.rs (or $f.rs.txt)"
    done
    mkdir -p "$out"
    find_rust
}

find_kit() {
    command -v rt >/dev/null || missing "there is no rt on the PATH: put the Rattle kit's bin folder there"
    kit=$(dirname "$(rt doc)")
}

find_rust() {
    [ "$(uname -m)" = x86_64 ] || missing "this machine is $(uname -m), and the static libraries are x86-64 code"
    command -v rustc >/dev/null || missing "there is no rustc on the PATH: install Rust, one whose integers have is_multiple_of"
    command -v cc >/dev/null || missing "there is no cc on the PATH, by which rustc links: install a C compiler"
}

# Every signature of an exported function that FILES state, once, as Rust declares it: a slice is a pointer and a
# length.
signatures() { # FILES
    cat "$@" | sed -e 's|//.*||' -e "s/<'a>//" -e "s/&'a /\&/g" | tr '\n' ' ' | awk '{
        while (match($0, /fn fugnadri_[a-z0-9_]*( as [a-z0-9_]*)?\([^)]*\)( -> [a-z0-9]+)?/)) {
            print substr($0, RSTART, RLENGTH)
            $0 = substr($0, RSTART + RLENGTH)
        }
    }' | sed -e 's/ as [a-z0-9_]*(/(/' -e 's/  */ /g' -e 's/( /(/' -e 's/,\{0,1\} )/)/' \
        -e 's/\([a-z0-9_]*\): &mut \[\([a-z0-9]*\)\]/\1: *mut \2, \1_len: usize/g' \
        -e 's/\([a-z0-9_]*\): &\[\([a-z0-9]*\)\]/\1: *const \2, \1_len: usize/g' | sort -u
}

# The static libraries, proved, and the crate `boundary` over them.
doors() { "$root/host/libraries" --names; }

build_boundary() {
    signatures "$root"/crates/fugnadri*/src/*.rt >"$out/exported"
    signatures "$root/host/src/boundary.rs" "$root"/host/src/boundary/*.rs >"$out/declared"
    if ! cmp -s "$out/exported" "$out/declared"; then
        echo "$me: what crates/fugnadri* export (<) is not what host/src/boundary.rs and boundary/ declare (>):" >&2
        diff "$out/exported" "$out/declared" | grep '^[<>]' >&2
        exit 1
    fi
    "$root/host/libraries" >/dev/null || failed "the static libraries are not proved"
    build_boundary_crate "$root/target/staticlib"
}

build_boundary_crate() { # FOLDER of the static libraries
    # shellcheck disable=SC2046
    build rlib boundary "$root/host/src/boundary.rs" -L "native=$1" $(doors | sed 's/^/-l static=/')
}

# host/'s crate as the crate `host`, with what the comparison looks at (host/src/compare.rs).
build_host() {
    # shellcheck disable=SC2046
    build rlib host "$root/host/src/lib.rs" --cfg compare -L "native=$root/target/staticlib" $(doors | sed 's/^/-l static=/')
}

# The original, in release mode, as the crate `wow_dsp`: from a copy below target/ with the edits that docs/ORACLE.md
# lists.
build_original() {
    copy=$out/original
    rm -rf "$copy" && mkdir -p "$copy"
    for f in lib modulation; do
        src=$(original_file "$f")
        sed -f "$root/oracle/edits/visibility.sed" "$src" >"$copy/$f.rs"
        sed 's/pub //' "$src" >"$copy/before"
        sed 's/pub //' "$copy/$f.rs" | cmp -s - "$copy/before" || other "visibility.sed changes more than visibility in $f.rs"
        changed "$f" "$src" 69 22
        [ "$elementary" = std ] || {
            mv "$copy/$f.rs" "$copy/before"
            sed -f "$root/oracle/edits/elementary.sed" "$copy/before" >"$copy/$f.rs"
            changed "$f" "$copy/before" 1 6
            ! grep -q '\.\(sin\|cos\|powf\)(' "$copy/$f.rs" || other "elementary.sed leaves a call of sin, cos or powf in $f.rs"
        }
    done
    rm -f "$copy/before"
    build rlib wow_dsp "$copy/lib.rs" --extern "boundary=$out/libboundary.rlib"
}
other() { missing "$1: the original is not the one that oracle/edits were made for"; }

original_file() { # lib|modulation
    case ${WOW_SRC:-} in
    '') from=$root/../shared/docs/src ;;
    /*) from=$WOW_SRC ;;
    *) from=$root/$WOW_SRC ;;
    esac
    from=$from/crates/wow-dsp/src/$1.rs
    if [ -f "$from" ]; then echo "$from"; else echo "$from.txt"; fi
}

# Holds the edits to the number of lines that they are known to change.
changed() { # FILE BEFORE LINES-OF-LIB LINES-OF-MODULATION
    want=$3
    [ "$1" = lib ] || want=$4
    got=$(diff "$2" "$copy/$1.rs" | grep -c '^>')
    [ "$got" = "$want" ] || other "the edits change $got lines of $1.rs and not $want"
}

# build rlib|bin NAME SOURCE WORDS..
build() {
    kind=$1 name=$2 source=$3
    shift 3
    file=$out/$name
    [ "$kind" = bin ] || file=$out/lib$name.rlib
    # shellcheck disable=SC2086
    rustc $flags --crate-type "$kind" --crate-name "$name" "$source" -L "$out" "$@" -o "$file" 2>"$out/$name.log" && return
    why="$(rustc --version) does not build $name: see ${out#"$root/"}/$name.log"
    # the original asks for a Rust that is new enough; what is this repository's own must build
    if [ "$name" = wow_dsp ]; then missing "$why"; else failed "$why"; fi
}
