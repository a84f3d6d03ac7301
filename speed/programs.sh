# The proved programs beside those in plain C, on the same files and scripts of three sizes: the instructions inside `main` of both. What they
# write must be the same, byte by byte. Read by `measure`.

build_programs() {
    for program in list dock turn diff bench; do
        [ -x "$home/crates/$program/out/$program" ] || die "crates/$program/out/$program is missing"
    done
    make_object counter "$here/counter.c" -fPIC -O1
    try "$tools/bin/ld.lld" -shared -o "$work/counter.so" "$work/counter.o" "$tools/lib/libc.so.6"
    for program in pages list dock convert compare; do
        make_object "$program" "$here/$program.c" -fPIE -O3
        try link "$work/$program" "$work/$program.o"
    done
    # The bench for the library, over plain C in its place.
    make_object bench "$headers/bench.c" -fPIE -O3
    for piece in plain host; do make_object "$piece" "$here/$piece.c" -fPIE -O3 -include "$here/library.h"; done
    try link "$work/bench" "$work/bench.o" "$work/plain.o" "$work/host.o"
}

# ---- Files and scripts

# elements COUNT: the lines of a table with so many elements.
elements() { awk -v n="$1" 'BEGIN { for (i = 1; i <= n; i++) printf "element %x 1 70 1dcd650 0\n", 2 * i; print "make 0" }'; }

# removal ELEMENTS REMOVED: so many removals to their end, and then the cells.
removal() {
    elements "$1"
    awk -v n="$2" 'BEGIN {
        for (i = 1; i <= n; i++) {
            printf "command unlocked 7c 0 %x 0 0\n", 2 * i
            for (step = 1; step <= 5; step++) print "step"
        }
        print "cells"
    }'
}

# pages ELEMENTS PAGES: so many pages filled and printed.
pages() {
    elements "$1"
    awk -v p="$2" 'BEGIN { printf "command unlocked 12 0 %x 0 %x\n", p, 512 * p }'
}

# read_back PAGES DESCRIPTORS: so many pages made by hand, with at most 255 descriptors, and read.
read_back() {
    awk -v p="$1" -v n="$2" 'BEGIN {
        printf "length %x\npoke 0 %x\npoke 4 %x\n", 512 * p, n, n
        for (i = 1; i <= n; i++) printf "poke %x %x\n", 32 * i + 4, i
        printf "read 0 %x 0\n", p
    }'
}

# dock ELEMENTS PAGES: SCSI data written, read, turned into so many pages, and these into data.
dock() {
    elements "$1"
    awk -v n="$1" -v p="$2" 'BEGIN {
        printf "scsi 0 0 0 %x %x\nscsiread 0 0 0\n", 32 + 32 * n, 32 + 32 * n
        printf "toata 0 0 0 %x %x\ntoscsi 0 %x 0 %x\n", p, 512 * p, p, 32 + 32 * n
    }'
}

# walk ELEMENTS: all of them, by pages of one.
walk() {
    elements "$1"
    awk -v n="$1" 'BEGIN {
        for (i = 0; i < n; i += 15) {
            start = i ? 2 * i + 1 : 0
            printf "command unlocked 12 0 1 %x 200\nnext 0 1 %x\n", start, start
        }
    }'
}

# make_inputs SIZE PAGES ELEMENTS, then of the scripts: ELEMENTS REMOVED DESCRIPTORS
make_inputs() {
    mkdir "$work/$1" || die "cannot write to $work"
    (cd "$work/$1" && load "$work/pages" "$2" "$3") || die "the pages were not written"
    removal "$4" "$5" > "$work/$1/removal"
    pages "$4" "$2" > "$work/$1/pages"
    read_back "$2" "$6" > "$work/$1/read"
    dock "$4" "$2" > "$work/$1/dock"
    walk "$4" > "$work/$1/walk"
    echo "$2" > "$work/$1/page-count"
}

# ---- The counting

# count SIDE PROGRAM INPUT [WORD..]: its output, and the instructions inside its `main`. The C library clears a buffer of 2 KB and more by one
# instruction that repeats itself, where the processor has a fast one.
count() {
    side=$1 program=$2 input=$3
    shift 3
    export GLIBC_TUNABLES=glibc.cpu.x86_rep_stosb_threshold=2048
    load --preload ../counter.so "$program" "$@" < "$input" > "$work/$side.out" 9> "$work/$side.count"
}

# try_counter: on one page, or words that there is none.
try_counter() {
    cd "$work/small" || die "cannot enter $work/small"
    (count c "$work/list" older) 2> /dev/null && [ "$(cat "$work/c.count")" -gt 0 ] 2> /dev/null ||
        die "no counter: the processor's trap flag does not work here"
}

# both PROGRAM NAME INPUT [WORD..]: the proved one and the one in C, at once.
both() {
    proved=$home/crates/$1/out/$1 plain=$work/$2
    shift 2
    cd "$work/$size" || die "cannot enter $work/$size" # A file's whole name would cost instructions too.
    count ours "$proved" "$@" & first=$!
    count c "$plain" "$@" & second=$!
    wait "$first" || die "$work_name, $size: the proved program did not end well"
    wait "$second" || die "$work_name, $size: the program in C did not end well"
    first='' second=''
    cmp -s "$work/ours.out" "$work/c.out" || die "$work_name, $size: another output than plain C"
    ours=$(cat "$work/ours.count") c=$(cat "$work/c.count")
}

# run_work PROGRAM WORK
run_work() {
    case "$1 $2" in
        'list listed') both list list older ;;
        'list refused') both list list refused ;;
        'dock listed') both dock dock data ;;
        'dock cut' | 'dock refused') both dock dock "data-$2" ;;
        'convert scsi') both turn convert older ;;
        'convert ata') both turn convert data "$(cat "$work/$size/page-count")" ;;
        'compare equal') both diff compare /dev/null older older ;;
        'compare mixed') both diff compare /dev/null mixed mixed-half ;;
        'compare tenth' | 'compare half' | 'compare all' | 'compare gone') both diff compare /dev/null older "$2" ;;
        'bench removal' | 'bench pages' | 'bench read' | 'bench dock' | 'bench walk') both bench bench "$2" ;;
        *) die "works.txt: no such work: $1 $2" ;;
    esac
}

# ---- The table

row() { print '%-8s %-8s %-6s %9s %9s %6s %11s %8s\n' "$@"; }

# quotient NUMBER OTHER: how many times the other, in hundredths.
quotient() { awk -v a="$1" -v b="$2" 'BEGIN { printf "%.2f", a / b }'; }

measure_work() {
    work_name="$1 $2" ours_before='' c_before=''
    for size in small garage full; do
        run_work "$1" "$2"
        ours_growth=- c_growth=-
        [ -z "$ours_before" ] || { ours_growth=$(quotient "$ours" "$ours_before"); c_growth=$(quotient "$c" "$c_before"); }
        row "$1" "$2" "$size" "$ours" "$c" "$(quotient "$ours" "$c")" "$ours_growth" "$c_growth"
        ours_before=$ours c_before=$c
    done
    [ "$3" = - ] && return
    [ "$((100 * ours))" -le "$(($3 * c))" ] && return
    printf 'speed: %s, full: %s times the instructions of C, limit %s per cent\n' "$work_name" "$(quotient "$ours" "$c")" "$3" >&2
    status=1
}

measure_programs() {
    build_programs
    make_inputs small 1 5 4 1 4
    make_inputs garage 9 128 32 1 32
    make_inputs full 128 2047 128 16 128
    try_counter
    grep -v '^#' "$here/works.txt" > "$work/works" || die "works.txt: no works"
    name_counter
    row program work size ours c ratio ours_growth c_growth
    while read -r program name limit; do
        case $limit in - | [0-9]*) ;; *) die "works.txt: no limit: $program $name" ;; esac
        measure_work "$program" "$name" "$limit"
    done < "$work/works"
}
