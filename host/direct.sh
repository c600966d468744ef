# host/direct.sh builds and runs the crate's programs and tests by rustc alone. It is sourced by host/test, after
# oracle/rust.sh, with `root`, `out` and `libraries` set.
# For a machine that has no cargo, or no test harness for its rustc: each program and each file of tests/ is copied
# below target/, where host/direct.rs stands in for Rust's own `main` and for its harness.

export CARGO_MANIFEST_DIR="$root/host" # the tests find the stored lists from here, as they do under cargo

build_programs() {
    crate "$out/direct/release"
    rust_reading=$out/direct/release/reading
    copied "$root/host/examples/reading.rs" 'program(main)' >"$rust_reading.rs"
    linked reading "$out/direct/release" fugnadri
    rust_user=$out/direct/release/user
    copied "$root/host/user/src/main.rs" 'program(main)' >"$rust_user.rs"
    linked user "$out/direct/release" wow_dsp
}

# Not in release mode: a reset that were refused would be noticed.
run_tests() {
    ! grep -rqE '#\[(cfg\()?test|```' "$root/host/src" ||
        failed "host/src has tests, and the direct way knows those of host/tests alone"
    tests=$out/direct/tests
    crate "$tests" -C debug-assertions=on
    mkdir -p "$tests/stored"
    cp "$root/host/tests/stored/mod.rs" "$tests/stored/mod.rs"
    : >"$out/tests.log"
    for source in "$root"/host/tests/*.rs; do
        name=$(basename "$source" .rs)
        listed=$(list_tests "$source") ||
            failed "$listed: the direct way knows a test as the line #[test] above the line fn NAME() {"
        copied "$source" "tests(&[$listed])" | sed 's/^#\[test\]$//' >"$tests/$name.rs"
        linked "$name" "$tests" fugnadri -C debug-assertions=on
        quietly "$name.log" "$tests/$name"
        cat "$out/$name.log" >>"$out/tests.log"
    done
    passed=$(grep -c '^test .* ok$' "$out/tests.log") || :
    written=$(cat "$root"/host/tests/*.rs | grep -c '#\[test\]')
    [ "$passed" = "$written" ] || failed "$passed tests ran of the $written that host/tests has"
}

# The crate as cargo would build it, without its build script.
crate() ( # FOLDER WORDS..
    out=$1
    shift
    mkdir -p "$out"
    # shellcheck disable=SC2046
    build rlib fugnadri "$root/host/src/lib.rs" -L "native=$libraries" $(doors | sed 's/^/-l static=/') "$@"
)

linked() ( # NAME FOLDER CRATE WORDS..: FOLDER/NAME from FOLDER/NAME.rs, which calls the crate CRATE
    name=$1 out=$2 crate=$3
    shift 3
    build bin "$name" "$out/$name.rs" --extern "$crate=$out/libfugnadri.rlib" -L "native=$libraries" "$@"
)

# The program's text, and behind it where it starts; every line keeps its number.
copied() { # SOURCE START
    sed '1s/^/#![no_main] /' "$1"
    cat <<EOS

#[path = "$root/host/direct.rs"]
mod direct;

#[export_name = "main"]
extern "C" fn start(_: i32, _: *const *const u8) -> i32 {
    direct::$2
}
EOS
}

# The tests of a file as direct.rs takes them: ("name", name), and so on. Fails at one that is written otherwise, and
# says where: none is left out unseen.
list_tests() { # FILE
    awk '
        function refuse() { print FILENAME ":" FNR; bad = 1; exit }
        under && !/^fn [a-z0-9_]+\(\) \{/ { refuse() }
        under { sub(/^fn /, ""); sub(/\(.*/, ""); list = list "(\"" $0 "\", " $0 "), " }
        { under = $0 == "#[test]" }
        !under && /#\[(test|ignore|should_panic)/ { refuse() }
        END { if (!bad) print list; exit bad }
    ' "$1"
}
