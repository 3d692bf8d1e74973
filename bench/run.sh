#!/bin/sh
# Measures the library beside plain C++ and prints tables.
#
#   bench/run.sh                  all of it
#   bench/run.sh times            times: the least of five runs. Run it on a machine that does nothing else
#   bench/run.sh counts           instructions, by valgrind's callgrind: the same on a busy machine
#   bench/run.sh stack            how much stack each call takes
#   bench/run.sh times near       one subject: near, roads, steps or levels
#
# It needs the kit's `rt`, g++, python3, valgrind and Debian's libompl-dev. The library is that of the last commit of this
# checkout: it is cloned, proved and built for C, with the functions of library/ in a crate of their own, which ask a
# measuring program in cpp/ to look at its clock, its count or its stack. Since these are C functions, `rt` is told that
# this crate, and no other, may declare some. With BENCH_FOLDER=FOLDER what is built stays there, and is used again by
# a later run over the same crates.
#
# What is measured, by subject:
#   near     our scan and our tree beside a plain scan, a tree by the same rules in plain C++ (its ranges laid out as the
#            search reads them), and OMPL's GNAT by its own settings: 64 queries for eight hits, and filing
#   roads    routes and islands beside a Dijkstra with a heap, that settles every place or stops at the start, and beside a
#            flood, over the same edges, which are laid out for them beforehand. No walls, so every pair passes
#   steps    Step beside the plain loop over the poses of a motion and the walls: 32 motions
#   levels   `levelrun` over levels of 64 walls and 512 calls
# Answers are compared in every run: "differ" counts those that are other ones, and is to be 0 but for OMPL's at equal
# distances. A ratio that is beyond what was wanted stands in bold.
set -e
here=$(cd "$(dirname "$0")" && pwd)
subjects="near roads steps levels"
kinds="times counts stack"
[ $# -gt 0 ] && kinds=$1
[ $# -gt 1 ] && shift && subjects=$*
work=${BENCH_FOLDER:-$(mktemp -d)}
[ -n "$BENCH_FOLDER" ] || trap 'rm -rf "$work"' EXIT
mkdir -p "$work"

# The library of the last commit, as C calls it, and `levelrun`.
build_library() {
    state="$(git -C "$here/.." rev-parse HEAD:crates HEAD:crates.txt) $(cat "$here"/library/*.txt "$here"/library/specs/*.txt | cksum)"
    [ "$state" = "$(cat "$work/built" 2> /dev/null)" ] && return
    rm -rf "$work/repository"
    git clone -q "$here/.." "$work/repository"
    crate=$work/repository/crates/bench_c
    mkdir -p "$crate/src" "$crate/specs" "$crate/c"
    for file in "$here"/library/*.txt; do cp "$file" "$crate/src/$(basename "$file" .txt)"; done
    for file in "$here"/library/specs/*.txt; do cp "$file" "$crate/specs/$(basename "$file" .txt)"; done
    below=$(sed -n 's/^play: //p' "$work/repository/crates.txt")
    echo "bench_c staticlib: $below play" >> "$work/repository/crates.txt"
    (cd "$crate" && RT_ALLOW_C=bench_c rt check && RT_ALLOW_C=bench_c rt lib) > "$work/library.log" 2>&1 ||
        { tail -20 "$work/library.log"; exit 1; }
    (cd "$work/repository/crates/levelrun" && rt run < /dev/null) > "$work/levelrun.log" 2>&1 || true
    [ -x "$work/repository/crates/levelrun/out/levelrun" ] || { tail -20 "$work/levelrun.log"; exit 1; }
    echo "$state" > "$work/built"
}

build_programs() {
    cd "$here/cpp"
    cxx="g++ -O2 -std=c++17 -isystem /usr/include/ompl-1.5 -isystem /usr/include/eigen3"
    library=$work/repository/crates/bench_c/out/libbench_c.a
    $cxx compare.cpp near.cpp roads.cpp steps.cpp measure.cpp "$library" -o "$work/compare" -lompl
    $cxx stack.cpp "$library" -o "$work/stack" -lpthread
}

show_times() {
    "$work/compare" $subjects > "$work/times"
    python3 "$here/tables.py" "$work/times"
    case $subjects in *levels*) python3 "$here/levels.py" times "$levelrun" "$work/levels" ;; esac
}

show_counts() {
    rm -rf "$work/dumps"
    mkdir "$work/dumps"
    LD_BIND_NOW=1 valgrind -q --tool=callgrind --instr-atstart=no --callgrind-out-file="$work/dumps/out" "$work/compare" $subjects > "$work/counts"
    python3 "$here/tables.py" "$work/counts" "$work/dumps"
    case $subjects in *levels*) python3 "$here/levels.py" counts "$levelrun" "$work/levels" ;; esac
}

show_stack() {
    "$work/stack" "$work"/levels/* > "$work/stacks"
    python3 "$here/tables.py" "$work/stacks"
}

build_library
build_programs
levelrun=$work/repository/crates/levelrun/out/levelrun
mkdir -p "$work/levels"
python3 "$here/levels.py" write "$work/levels"
for kind in $kinds; do "show_$kind"; done
