# shellcheck shell=sh disable=SC2034,SC2154
# Read by the launchers (./elfshow, ./nugwier) and by ./prove, which set top: where a program lies, what it is made of,
# and how it is built without proof.

# set_program CRATE: the program that the other functions speak of
set_program() {
    crate=$1
    folder=$top/crates/$crate
    out=$folder/out
    proved=$out/$crate
    unproved=$out/unproved
}

# crates_of NAME..: the crates of this repository that these are made of by crates.txt, and these, lowest first
crates_of() {
    awk -v names="$*" '
        { sub(/#.*/, "") }
        /:/ { split($0, half, ":"); split(half[1], words, " "); below[words[1]] = half[2] }
        function visit(crate, all, count, i) {
            if (!(crate in below) || seen[crate]++) return
            count = split(below[crate], all, " ")
            for (i = 1; i <= count; i++) visit(all[i])
            print crate
        }
        END { count = split(names, list, " "); for (k = 1; k <= count; k++) visit(list[k]) }' "$top/crates.txt"
}

# sources FIND-WORD..: runs find over what the program is made of: crates.txt, and src, specs and proofs of its crates
sources() {
    # shellcheck disable=SC2046
    (cd "$top/crates" && find ../crates.txt $(crates_of "$crate" | sed 's,.*,&/src &/specs &/proofs,') "$@" 2>/dev/null)
}

# sources_sum: the checksum of the names and the content of these files
sources_sum() {
    sources -type f -exec sha256sum {} + | LC_ALL=C sort | sha256sum
}

# is_current PROGRAM: the program is there, and its sources are those that it was made of. PROGRAM.sources has their
# checksum. It is as old as the reading of the sources, so nothing is read where no source was touched since.
is_current() {
    [ -x "$1" ] && [ -f "$1.sources" ] || return 1
    [ -n "$(sources -cnewer "$1.sources" | head -n 1)" ] || return 0
    { : >"$1.sources.$$"; } 2>/dev/null
    is_same=1
    if [ "$(cat "$1.sources")" = "$(sources_sum)" ]; then
        is_same=0
        touch -r "$1.sources.$$" "$1.sources" 2>/dev/null
    fi
    rm -f "$1.sources.$$"
    return "$is_same"
}

# note_sources FILE: reads the sources, and writes their checksum to FILE, which is as old as the start of the reading
note_sources() {
    : >"$1.started"
    sources_sum >"$1" && touch -r "$1.started" "$1" && rm "$1.started"
}

# stop WORD..: says in one line what is wrong and what to do, and ends
stop() {
    echo "$(basename "$0"): $*" >&2
    exit 1
}

# need_build: stops where the toolchain is not found, or what it builds cannot be written
need_build() {
    command -v rt >/dev/null || stop "no command rt: put the folder bin of the Rattle kit on the PATH"
    if ! mkdir -p "$out" 2>/dev/null || [ ! -w "$out" ]; then
        stop "cannot write to $out: run this once as a user who can"
    fi
}

# clean_up_build: ends the wait for a program that did not run, and removes the temporary folder
clean_up_build() {
    kill "$copying" 2>/dev/null
    wait "$copying" 2>/dev/null
    rm -rf "$work"
}

# build_unproved BEFORE AFTER: builds the program without proof. `rt try` runs the program that it builds, and removes
# it. Here that program is given a pipe to read, between these words, and is copied while it waits for its bytes.
build_unproved() {
    work=$(mktemp -d) || stop "cannot make a temporary folder: set TMPDIR to a folder that can be written to"
    mkdir "$work/try"
    mkfifo "$work/pipe"
    note_sources "$work/sources"
    (
        exec 3>"$work/pipe"
        find "$work/try" -type f -name program -exec cp {} "$work/program" \;
    ) &
    copying=$!
    trap clean_up_build EXIT
    trap 'exit 130' INT TERM HUP
    # shellcheck disable=SC2086
    (cd "$folder" && TMPDIR=$work/try rt try -- $1 "$work/pipe" $2) </dev/null >"$out/unproved.log" 2>&1
    [ -x "$work/program" ] || stop "the build without proof failed: read $out/unproved.log, or run $top/prove"
    # Another run may be at the same work, so each file is put there whole. Without the checksum no program is current.
    # Other users may run it too.
    rm -f "$unproved.sources"
    if ! cp "$work/program" "$unproved.$$" || ! chmod 755 "$unproved.$$" || ! mv "$unproved.$$" "$unproved" ||
        ! cp -p "$work/sources" "$unproved.$$" || ! mv "$unproved.$$" "$unproved.sources"; then
        stop "cannot write $unproved: make room for it"
    fi
    trap - EXIT INT TERM HUP
    clean_up_build
}

# launch NAME CRATE SECONDS BEFORE AFTER WORD..: runs the proved program, which ./prove builds, if it was made of the sources as
# they are now. Otherwise runs a program of these sources that was built without proof, and says so in one line on
# standard error. With the words BEFORE, a file and AFTER the program reads that file.
launch() {
    name=$1
    set_program "$2"
    seconds=$3
    before=$4
    after=$5
    shift 5
    if is_current "$proved"; then
        exec "$proved" "$@"
    fi
    if is_current "$unproved"; then
        echo "$name: this program is not proved; to prove it: $top/prove" >&2
    else
        need_build
        crates=$(crates_of "$crate" | wc -l)
        echo "$name: building the program without proof, once: rt compiles its $crates crates, in about $seconds seconds" \
            "on an idle machine; to prove it: $top/prove" >&2
        build_unproved "$before" "$after"
    fi
    exec "$unproved" "$@"
}
