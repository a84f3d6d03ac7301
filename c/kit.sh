# C by the Rattle kit alone, with no package: compiled, linked with the kit's C library, and run. Read by scripts that have `die`, and have
# put this folder's name into `headers`.

# use_kit FOLDER: before all else.
use_kit() {
    kit=$1
    tools=$kit/toolchain
    for file in "$tools/bin/clang" "$tools/bin/ld.lld" "$tools/lib/libc.so.6"; do
        [ -e "$file" ] || die "$file is missing: the kit is not whole"
    done
    find_emulator
}

# find_emulator: what starts a program of x86-64 on this machine, nothing on x86-64 itself.
find_emulator() {
    emulator=''
    [ "$(uname -m)" = x86_64 ] || emulator=$(command -v qemu-x86_64) || die "the programs are for x86-64: on $(uname -m) the command 'qemu-x86_64' has to be on the PATH"
}

# find_kit: the kit whose command `rt` is on the PATH.
find_kit() {
    command -v rt > /dev/null 2>&1 || die "the Rattle kit is missing: its command 'rt' is not on the PATH"
    use_kit "$(dirname "$(rt doc)")"
}

# The code is that of x86-64 on every machine.
compile() { "$tools/bin/clang" --target=x86_64-unknown-linux-gnu -march=x86-64 "$@"; }

# compile_c FILE OBJECT OPTION..: over the headers in this folder.
compile_c() {
    file=$1 object=$2
    shift 2
    compile -std=gnu17 -nostdinc -I "$headers" -I "$headers/include" "$@" -c "$file" -o "$object"
}

# link PROGRAM OBJECT..: as the kit links a proved one.
link() {
    linked=$1
    shift
    "$tools/bin/ld.lld" -pie -z now -dynamic-linker /lib64/ld-linux-x86-64.so.2 -o "$linked" "$tools/lib/Scrt1.o" "$tools/lib/crti.o" \
        "$tools/lib/crtbeginS.o" "$@" "$tools/lib/libc.so.6" "$tools/lib/libc_nonshared.a" "$tools/lib/crtendS.o" "$tools/lib/crtn.o"
}

# load WORDS..: a program under the kit's loader, and on Arm under an emulator, in the place of this process; nothing is preloaded, as that
# would be for another libc.
load() {
    export LD_PRELOAD='' LD_AUDIT=''
    exec ${emulator:+"$emulator"} "$tools/lib/ld-linux-x86-64.so.2" --library-path "$tools/lib" "$@"
}

# ---- A crate over those of the repository in `home`, as rt has proved them and left them in their out/rlib

# reach CRATE..: adds them and all that they build on to `libraries`, but what is the kit's.
reach() {
    for crate; do
        [ -d "$home/crates/$crate" ] || continue
        case " $libraries " in *" $crate "*) continue ;; esac
        libraries="$libraries $crate"
        # shellcheck disable=SC2046
        reach $(sed -n "s/^$crate: *//p" "$home/crates.txt")
    done
}

# build_over LIBRARIES FOLDER CRATE ROOT FILE OPTION..: this crate, of the file ROOT in the folder, over what it names of the libraries. It is
# proved here, and no library again.
build_over() {
    names=$1 folder=$2 crate_name=$3 root=$4 made=$5
    shift 5
    libraries=''
    # shellcheck disable=SC2086
    reach $names
    for crate in $names; do set -- "$@" --extern "$crate=$home/crates/$crate/out/rlib/$crate.rlib"; done
    for crate in $libraries; do
        [ -e "$home/crates/$crate/out/rlib/$crate.rlib" ] || { echo "crates/$crate/out has no library" >&2; return 1; }
        set -- "$@" -L "dependency=$home/crates/$crate/out/rlib"
    done
    (cd "$folder" && exec "$kit/bin/rattle" build --crate-name "$crate_name" "$root" --extern "std=$kit/rlibs/std.rlib" -L "dependency=$kit/rlibs" \
        --antt-project "$kit/rattle/logic/antt-project.json" --logic-built "$kit/logic_built" --jobs 2 --links "$crate_name=" --backend llvm "$@" -o "$made")
}

# stale FILE: whether a source of a crate in `home` is newer than it.
stale() {
    [ -n "$(cd "$home" && find crates crates.txt -path 'crates/*/out' -prune -o \( -path 'crates/*/*' -o -name crates.txt \) -newer "$1" -print | head -n 1)" ]
}
