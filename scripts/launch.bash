# Picks the program that a launcher runs, and builds one where there is none. The launchers at the
# top of the repository read this file; it does nothing by itself.
#
# The proved program runs where it is there and no source is newer; then the launcher says nothing.
# Else the code runs without its proofs: the toolchain builds it in one to three minutes, with checks
# that stop a bad access or a sum that wraps, and it is kept below out/ until a source changes. Then
# the launcher says so on standard error, in one line. All words are the program's own. The status is
# 127 where something has to be built and rt is missing, 126 where that fails, and 125 where the
# launcher was not used as a command of its checkout.

# Says on standard error why the launcher stops, and with which status.
stop() {
    echo "$name: $2" >&2
    exit "$1"
}

# Says on standard error that what runs is not proved, and what else there is to say of it.
say_unproved() {
    echo "$name: this build is not proved yet${1:-}; ./prove proves it" >&2
}

# Whether the program was proved: rt run leaves a stamp beside it, and the gate the same program as
# the toolchain's second compiler builds it, which it does with proved code alone.
is_proved() {
    [ -e "$proved.stamp" ] || [ -e "$proved.by-rattle" ]
}

# Whether a program is there and nothing in the given kinds of folder is newer.
is_newest() {
    [ -x "$1" ] || return 1
    local program=$1 newer folders=() kind
    shift
    for kind; do
        folders+=("$top"/crates/*/"$kind")
    done
    newer=$(find "$top/crates.txt" "${folders[@]}" -newer "$program" -print -quit 2>/dev/null)
    [ -z "$newer" ]
}

# Keeps the program that rt tries in the folder, where it lies for as long as it runs. It gets a
# second name, since rt removes the first.
keep_program() {
    local made
    for made in "$1"/**/program; do
        ln -f "$made" "$1/kept" 2>/dev/null
    done
}

# Ends what a build has begun, and removes its folder.
clean_up() {
    [ -z "$trying" ] || kill "$trying" 2>/dev/null
    rm -rf "$folder"
}

# Builds the code without its proofs: rt tries it on the examples, and the program is kept. Each
# build has a folder of its own, so that two at a time do not meet.
build_unproved() {
    command -v rt >/dev/null ||
        stop 127 "there is something to build, and the command rt is missing"
    mkdir -p "$top/out" 2>/dev/null && folder=$(mktemp -d "$top/out/try.XXXXXX" 2>/dev/null) ||
        stop 126 "the program could not be built: $top/out cannot be written"
    say_unproved ", and is made now, in one to three minutes"
    trying=
    trap clean_up EXIT
    trap 'exit 130' INT TERM HUP
    # What is edited while it is built is newer than the program, which gets the time of the start.
    touch "$folder/begun"
    mkdir "$folder/cases" && cp "$top"/examples/*."$given" "$folder/cases"
    (cd "$top/crates/$crate" && TMPDIR=$folder exec rt try --cases "$folder/cases" -- "${tried[@]}") \
        </dev/null >/dev/null 2>"$folder/told" &
    trying=$!
    # Nothing ever comes from here, so that reading it with a limit is a pause without a process.
    exec {nothing}<> <(:)
    while kill -0 "$trying" 2>/dev/null; do
        keep_program "$folder"
        read -rt 0.02 -u "$nothing"
    done
    if ! wait "$trying" || ! [ -e "$folder/kept" ]; then
        cat "$folder/told" >&2
        stop 126 "the program could not be built"
    fi
    trying=
    chmod 755 "$folder/kept" && touch -r "$folder/begun" "$folder/kept" &&
        mv -f "$folder/kept" "$unproved" || stop 126 "the program could not be kept as $unproved"
    exec {nothing}>&-
    clean_up
    trap - EXIT INT TERM HUP
}

# Runs the program of a crate with the words behind --. Before it stand the name of the launcher, the
# crate, and how rt tries it: on the examples of a kind, by these words.
launch() {
    name=$1 crate=$2 given=$3 tried=()
    shift 3
    while [ "$1" != -- ]; do
        tried+=("$1")
        shift
    done
    shift
    proved=$top/crates/$crate/out/$crate
    unproved=$top/out/$name
    [ -e "$top/crates/$crate/src/main.rt" ] ||
        stop 125 "the launcher belongs at the top of its repository, and $top is not that"
    if is_proved && is_newest "$proved" src specs proofs; then
        exec "$proved" "$@"
    fi
    if is_newest "$unproved" src; then
        say_unproved
    else
        build_unproved
    fi
    exec "$unproved" "$@"
}
