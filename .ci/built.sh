# By what a program is known to be built from the sources as they are: a mark beside it, of three lines. `gate`, `deploy/package` and
# `.ci/run` source this. The first and the last leave a program, its mark and its verdicts in one folder, and each holds the file gate.lock
# there while it does.

# What `rt version` prints, or nothing without `rt`. The command takes a third of a second to print the file KIT-ID.
toolchain() {
    local rt line
    rt=$(type -P rt) && rt=$(readlink -f -- "$rt") || return 0
    if [[ -r ${rt%/*}/../KIT-ID ]]; then
        read -r line <"${rt%/*}/../KIT-ID" || true
    else
        read -r line < <(rt version 2>/dev/null </dev/null) || true
    fi
    echo "$line"
}

# A checksum of the sources of the tree $1. Contents tell more than times: a file can be removed, or an older one can come back. This
# takes about 15 ms.
sources() (
    shopt -s nullglob
    cd "$1"
    find crates.txt crates/*/{src,specs,proofs} -type f -print0 | LC_ALL=C sort -z | xargs -0r sha1sum | sha1sum
)

# Marks the program $1 in the file $2: by the toolchain $3 and the sources $4 that gave it, and by a checksum of its own.
mark() {
    printf '%s\n' "$3" "$4" "$(sha1sum <"$1")" >"$2.next"
    mv "$2.next" "$2"
}

# Lists in `order` a crate of the program behind those that it depends on. All libraries that it depends on are in `needs`.
list_crates() {
    local it
    [[ ! -v needs[$1] ]] || return 0
    needs[$1]=$(sed -n "s/^$1://p" "$top/crates.txt")
    for it in ${needs[$1]}; do
        ! grep -q "^$it:" "$top/crates.txt" || list_crates "$it"
    done
    order+=("$1")
}

# Takes note of the verdict of a crate, if the line $1 of `rt ci` is one: of those below the heading of a crate the last one counts. Its
# tests have a heading of their own. The caller has `verdicts`, and `of_crate`, which keeps the heading from one line to the next.
note_verdict() {
    case $1 in
    "== "*) of_crate=${1#== } ;;
    "logic=proved "*) [[ ! $of_crate =~ ^[a-z_]+$ ]] || verdicts[$of_crate]=$1 ;;
    esac
}

# Prints the crates of the program, by the tree $1, that `verdicts` lacks.
without_verdict() {
    local top=$1 it
    local -a order=()
    local -A needs=()
    list_crates gate_bot
    for it in "${order[@]}"; do
        [[ -v verdicts[$it] ]] || echo "$it"
    done
}

# Writes into the file $1, beside a program, what was proved of it: from the sources $2, compiled by the compiler $3. On standard input
# stands the verdict of each crate, as the kit prints it, behind the name of the crate. `deploy/package` reads this.
note_verdicts() {
    { printf '%s\n' "sources $2" "compiler $3" && LC_ALL=C sort; } >"$1.next"
    mv "$1.next" "$1"
}

# Copies the programs that `rt ci` has built in the tree $1 into the tree $2, so that `.ci/test_rows` and its like find them there. If
# the toolchain $3 and the sources $4 are told, that of gate_bot is marked, and the verdicts of the crates stand in the file $5. While
# `./gate` builds one there, nothing is copied.
keep_programs() {
    local out=$2/crates/gate_bot/out name program
    mkdir -p "$out"
    exec 9>"$out/gate.lock"
    if ! flock -n 9; then
        echo "./gate is building the program, so the programs of these checks aren't kept"
        return
    fi
    rm -f "$out/gate.built" "$out/gate.verdicts"
    for name in gate_bot gate_books; do
        mkdir -p "$2/crates/$name/out"
        for program in "$1/crates/$name/out/$name"{,.by-rattle}; do
            # One that runs goes on, since its file isn't written over.
            [[ ! -f $program ]] || cp --remove-destination "$program" "$2/crates/$name/out/"
        done
    done
    (($# < 5)) || note_verdicts "$out/gate.verdicts" "$4" LLVM <"$5"
    (($# < 4)) || mark "$out/gate_bot" "$out/gate.built" "$3" "$4"
    exec 9>&-
}
