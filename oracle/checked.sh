# oracle/checked.sh builds the exports with the toolchain's checks of what LLVM assumes. It is sourced after
# oracle/rust.sh, with `kit` and `out` set. `rt try` compiles a program with a check in front of each assumption that
# the backend lets LLVM make. It takes programs alone. So a program that calls every export once is tried in a copy of
# the crates where the static libraries are libraries, over an overlay of the kit that keeps the module handed to clang;
# and each export gets its C form as the static library has it. Copy and overlay stand in a temporary folder and are
# removed, for `rt ci` refuses a source that is in no crate of the repository.

build_checked() { # leaves $out/libboundary.rlib over $out/libchecked.a
    signatures "$root"/crates/fugnadri*/src/*.rt >"$out/exported"
    try_module
    "$clang" --target=x86_64-unknown-linux-gnu --no-default-config -x ir "$out/module.bc" -S -emit-llvm -O0 -Xclang -disable-llvm-passes -o "$out/module.ll"
    grep -q '^define .*@"rattle-llvm-checks::' "$out/module.ll" || missing "this kit's rt try hands clang a module without checks: --checked cannot be had"
    sed 's/^define i32 @main()/define internal i32 @main()/' "$out/module.ll" >"$out/checked.ll"
    c_forms "$out/module.ll" "$out/exported" >>"$out/checked.ll" || failed "an export is not in the module of rt try: see target/hostile/module.ll"
    # as the toolchain compiles that module
    "$clang" --target=x86_64-unknown-linux-gnu -march=x86-64 -ffunction-sections -fdata-sections -mllvm -trap-unreachable -mllvm -no-trap-after-noreturn \
        --no-default-config -c -x ir "$out/checked.ll" -o "$out/checked.o" -fPIC -O0 2>"$out/checked.log" || failed "the checked module does not compile: see target/hostile/checked.log"
    rm -f "$out/libchecked.a"
    "$kit/toolchain/bin/llvm-ar" rcs "$out/libchecked.a" "$out/checked.o"
    build rlib boundary "$root/host/src/boundary.rs" -L "native=$out" -l static=checked
}

# The module that is compiled with checks, as $out/module.bc.
try_module() {
    room=$(mktemp -d) clang=$kit/toolchain/bin/clang
    over=$room/kit repository=$room/repository
    rm -f "$out/module.bc" && mkdir -p "$over/bin" "$over/toolchain/bin" "$repository/crates/tried/src"
    for f in "$kit"/*; do case ${f##*/} in bin | toolchain) ;; *) ln -s "$f" "$over/${f##*/}" ;; esac; done
    # rt takes the kit that it stands in: so it is copied, and what it starts is linked
    for f in "$kit"/bin/*; do case ${f##*/} in rt | *.py) cp "$f" "$over/bin" ;; *) ln -s "$f" "$over/bin/${f##*/}" ;; esac; done
    ln -s "$kit/toolchain/lib" "$over/toolchain/lib"
    for f in "$kit"/toolchain/bin/*; do printf '#!/bin/sh\nexec "%s" "$@"\n' "$f" >"$over/toolchain/bin/${f##*/}"; done
    printf '#!/bin/sh\nfor a in "$@"; do case $a in *.bc) cp "$a" "%s" ;; esac; done\nexec "%s" "$@"\n' "$out/module.bc" "$clang" >"$over/toolchain/bin/clang"
    chmod +x "$over"/toolchain/bin/*
    for crate in "$root"/crates/*/; do
        to=$repository/crates/$(basename "$crate")
        mkdir -p "$to"
        for part in src specs proofs; do [ ! -d "$crate/$part" ] || cp -r "$crate/$part" "$to/$part"; done
    done
    { sed 's/ staticlib:/:/' "$root/crates.txt" && echo "tried: $(doors | tr '\n' ' ')"; } >"$repository/crates.txt"
    for door in $(doors); do
        for source in "$root/crates/$door"/src/*.rt; do
            module=$(basename "$source" .rt)
            case $module in lib) path=$door ;; *) path=$door::$module ;; esac
            sed -e 's|//.*||' -e "s/<'a>//" "$source" | tr '\n' ' ' | grep -o 'fn fugnadri_[a-z0-9_]*([^)]*)' | sed "s/^fn /$path::/"
        done
    done | calls >"$repository/crates/tried/src/main.rt"
    tried=yes
    (cd "$repository/crates/tried" && "$over/bin/rt" try </dev/null) >"$out/try.log" 2>&1 || tried=
    rm -rf "$room"
    [ -n "$tried" ] || failed "rt try fails: see target/hostile/try.log"
    [ -f "$out/module.bc" ] || missing "this kit's rt try hands clang no module: see target/hostile/try.log; --checked cannot be had"
}

# A program that calls each export once, on zeros: only what is called is in the module.
calls() {
    awk '
        function zero(type) { return type ~ /^f/ ? "0.0" : "0" }
        BEGIN { print "#![tactic(auto)]\n" }
        {
            path = $0; sub(/\(.*/, "", path); line = $0; sub(/^[^(]*\( */, "", line); sub(/,? *\) *$/, "", line)
            many = split(line, part, / *, +/); lets = handed = ""
            for (i = 1; i <= many; i++) {
                type = part[i]; sub(/^[a-z0-9_]*: */, "", type); sub(/^&\047a /, "\\&", type)
                lent = ""; if (type ~ /^&/) lent = "&"; if (type ~ /^&mut /) lent = "&mut "
                sub(/^&(mut )?/, "", type); size = 0
                if (type ~ /^\[/) { size = 1; gsub(/[\[\]]/, "", type); if (split(type, both, "; ") == 2) { type = both[1]; size = both[2] } }
                lets = lets "    let " (lent == "&mut " ? "mut " : "") "p" i (size ? " = [" zero(type) type "; " size "]" : ": " type " = " zero(type)) ";\n"
                handed = handed (i > 1 ? ", " : "") lent "p" i
            }
            print "fn call_" NR "() {\n" lets "    " path "(" handed ");\n}\n"
            all = all "    call_" NR "();\n"
        }
        END { print "fn main() {\n" all "}" }'
}

# The C form of each export: a slice is a pointer and a length in both.
c_forms() { # MODULE SIGNATURES
    awk '
        BEGIN { split("usize i64 u64 i64 i64 i64 u32 i32 i32 i32 u8 i8 f64 double f32 float", w, " "); for (i = 1; i in w; i += 2) is[w[i]] = w[i + 1] }
        NR == FNR {
            if (match($0, /^define [^@]*@"[a-z0-9_:]*::fugnadri_[a-z0-9_]*"\(/)) {
                whole = substr($0, RSTART, RLENGTH); sub(/^[^@]*/, "", whole); sub(/\($/, "", whole)
                name = whole; sub(/.*::/, "", name); sub(/"/, "", name)
                inner[name] = whole
            }
            next
        }
        {
            line = $0; sub(/^fn /, "", line)
            name = line; sub(/\(.*/, "", name)
            if (!(name in inner)) { print name > "/dev/stderr"; bad = 1; exit }
            result = line; if (!sub(/.* -> /, "", result)) result = ""
            sub(/^[^(]*\(/, "", line); sub(/\).*/, "", line)
            many = split(line, part, ", "); formal = ""
            for (i = 1; i <= many; i++) {
                type = part[i]; sub(/^[a-z0-9_]*: /, "", type)
                formal = formal (i > 1 ? ", " : "") (type ~ /^(\*|&mut )/ ? "ptr" : is[type]) " noundef %a" i
            }
            if (result == "")
                printf "\ndefine void @%s(%s) {\nstart:\n  call void %s(%s)\n  ret void\n}\n", name, formal, inner[name], formal
            else
                printf "\ndefine noundef %s @%s(%s) {\nstart:\n  %%r = call noundef %s %s(%s)\n  ret %s %%r\n}\n", is[result], name, formal, is[result], inner[name], formal, is[result]
        }
        END { exit bad }
    ' "$1" "$2"
}
