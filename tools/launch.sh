# What the launchers have in common, which read this file: each sets `top`, and the `name` under which it speaks. At the
# first use, and where a source is newer than its program, this is proved and built first, which is told on standard
# error. Standard output and the exit status are the program's own.

# refuse TEXT: says why the launcher does nothing
refuse() {
    echo "$name: $1" >&2
    exit 9
}

# Three words are the launcher's own, where they come first: with `--jobs N` what is built gets N processors; with `--build`
# the programs are built and none is run; and with `--install DIR` they are put into that folder too.
jobs=0 builds_only=no installs_into=
while :; do
    case ${1-} in
    --jobs)
        case ${2-} in
        '' | 0* | *[!0-9]*) refuse '--jobs N: N is the number of processors to use, from 1 on' ;;
        esac
        jobs=$2
        shift 2
        ;;
    --build)
        builds_only=yes
        shift
        ;;
    --install)
        [ -n "${2-}" ] || refuse '--install DIR: DIR is the folder that the programs are put into'
        builds_only=yes installs_into=$2
        shift 2
        ;;
    *) break ;;
    esac
done

# is_stale CRATE: whether its program is missing, or one of the files that it stands on is newer. The build lists their
# folders; a program that the gate has built has no such list, and is compared with the sources of all crates.
is_stale() {
    program=$top/crates/$1/out/$1
    sources=$top/crates/$1/out/sources
    [ -x "$program" ] || return 0
    folders='crates/*/src crates/*/specs crates/*/proofs'
    [ ! -f "$sources" ] || folders=$(cat "$sources")
    # The names have no blanks, and a pattern stands for folders.
    # shellcheck disable=SC2086
    [ -n "$(cd -- "$top" && find crates.txt $folders -newer "$program" 2>/dev/null | head -n 1)" ]
}

# needs_kit: what builds is there
needs_kit() {
    for command in rt python3; do
        command -v "$command" >/dev/null 2>&1 ||
            refuse "the program has to be built, and the command $command of the Rattle kit is not on the PATH"
    done
}

# builds LAUNCHER:CRATE..: builds those of these programs that are missing or stale, all at once
builds() {
    stale=
    for it in "$@"; do
        if is_stale "${it#*:}"; then stale=$stale${stale:+,}${it%:*}; fi
    done
    [ -n "$stale" ] || return 0
    needs_kit
    python3 "$top/tools/build.py" "$name" "$jobs" "$stale"
}

# gate_of FILE: its first byte in two digits, that of a whole file being 4b; nothing where it is empty or not there
gate_of() { if [ -f "$1" ]; then od -An -tx1 -N1 -- "$1" 2>/dev/null | tr -d ' '; fi; }

# warns_of_halves BASE: warns where one of two copies is missing or empty. A copy of before that comes back later would
# count beside none, and what was committed since then would be undone. It may also be a file by itself, under texts that
# ask for two, or a making that never ended, which the program refuses.
warns_of_halves() {
    if grep -qiE '^[[:space:]]*MAX[[:space:]].*DOUBLE' -- "$1.def" 2>/dev/null; then
        for pair in "A B" "B A"; do
            one=$1.KDC${pair% *} other=$1.KDC${pair#* }
            if [ "$(gate_of "$one")" = 4b ] && [ ! -s "$other" ]; then
                [ -e "$other" ] && what='is empty' || what='is not there'
                echo "$name: $other: $what beside $one, a copy or a file by itself ('carry state' tells which); docs/operating.md says when that is safe" >&2
            fi
        done
    elif [ -s "$1.KDCB" ]; then
        echo "$name: $1.KDCB: a second file is there, and $1.def asks for one ('carry state' tells what both are)" >&2
    fi
}

# installs: puts each program into the folder, under its own name, whole or not at all: one that is running there stays
installs() {
    mkdir -p -- "$installs_into" || refuse "--install: no programs are put into $installs_into"
    for crate in utm live carry kdcs_lab; do
        new=$installs_into/.$crate.new
        { cp -- "$top/crates/$crate/out/$crate" "$new" && mv -f -- "$new" "$installs_into/$crate"; } ||
            refuse "--install: not all programs are put into $installs_into"
    done
    echo "$name: utm, live, carry and kdcs_lab are put into $installs_into; they run there as they are, whatever is changed here" >&2
}

# becomes CRATE WORD..: becomes its program with these words, which is built first where it has to be
becomes() {
    crate=$1
    shift
    if [ "$builds_only" = yes ]; then
        [ $# = 0 ] || refuse '--build and --install run nothing, so no other word comes behind them'
        builds utm:utm lab:kdcs_lab live:live carry:carry || exit
        echo "$name: utm, lab, live and carry are built" >&2
        [ -z "$installs_into" ] || installs
        exit 0
    fi
    if is_stale "$crate"; then
        needs_kit
        exec python3 "$top/tools/build.py" "$name" "$jobs" "$name" run "$@"
    fi
    exec "$program" "$@"
}
