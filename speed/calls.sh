# The calls of crate `calls` on a device, and those of the library for C, as compiled, beside plain C that does the same in place. The code of
# the first is taken from a small program that reaches them. Read by `measure`.

# The module of that program, over `calls` and all that it builds on, and the options that it is compiled with.
compile_module() {
    # The kit's tools, with a compiler that also keeps the module of the -O3 run and the options that it was given.
    mkdir -p "$work/tools/bin" "$work/reach/src" || die "cannot write to $work"
    ln -s "$tools/lib" "$work/tools/lib"
    ln -s "$tools/bin" "$work/tools/kit"
    for tool in "$tools"/bin/*; do
        [ "${tool##*/}" = clang ] || ln -s "../kit/${tool##*/}" "$work/tools/bin/"
    done
    cat > "$work/tools/bin/clang" << 'END'
#!/bin/sh
tools=$(dirname "$(dirname "$0")")
case " $* " in *' -O3 '*)
    cp module.bc "$tools/../module.bc" && printf '%s\n' "$@" > "$tools/../options"
esac
exec "$tools/kit/clang" "$@"
END
    chmod +x "$work/tools/bin/clang"

    cp "$here/reach.txt" "$work/reach/src/main.rt"
    named=$(awk '{ gsub(/[^A-Za-z_:]/, " "); for (i = 1; i <= NF; i++) if ($i ~ /^[a-z_]+::/) { sub(/::.*/, "", $i); if (!seen[$i]++) print $i } }' "$here/reach.txt")
    set -- build_over "$named" "$work/reach" reach src/main.rt "$work/reach/main.o" --toolchain "$work/tools"
    "$@" > "$work/log" 2>&1 || { # Its libraries are not there, or not of one piece.
        (cd "$home/crates/calls" && rt lib) > "$work/log" 2>&1 || { tail -n 5 "$work/log" >&2; die "crate calls was not built"; }
        try "$@"
    }
    [ -s "$work/options" ] || die "the kit's compiler was not called at -O3"
}

# The calls made visible to C, and compiled with those options.
compile_calls() {
    calls=$(sed -n 's/^ *calls::\([a-z_]*\)(.*/\1/p' "$here/reach.txt" | paste -s -d '|' -)
    try compile -x ir "$work/module.bc" -S -emit-llvm -Xclang -disable-llvm-passes -o "$work/module.ll"
    sed -E -e "s/^define internal (.*@\"calls::($calls)\")/define \1/" -e "s/@\"calls::($calls)\"/@calls_\1/g" \
        -e 's/^define i32 @main\(/define internal i32 @reach(/' "$work/module.ll" > "$work/calls.ll"
    set --
    while IFS= read -r option; do
        case $option in module.bc) option=$work/calls.ll ;; module.o) option=$work/proved.o ;; esac
        set -- "$@" "$option"
    done < "$work/options"
    try "$tools/bin/clang" "$@"
}

measure_calls() {
    [ -e "$archive" ] || die "$archive is missing"
    compile_module
    compile_calls
    for piece in plain host; do make_object "$piece" "$here/$piece.c" -fPIE -O3; done
    make_object count "$here/count.c" -fPIE -O1 -fno-builtin
    try link "$work/count" "$work/count.o" "$work/proved.o" "$work/plain.o" "$work/host.o" "$archive"
    ended=0
    table=$(load "$work/count") || ended=$?
    case $ended in
        0 | 1) ;;
        2) exit 2 ;;
        *) die "the counting did not end well" ;;
    esac
    name_counter
    print '%s\n' "$table"
    [ "$ended" -eq 0 ] || status=1
}
