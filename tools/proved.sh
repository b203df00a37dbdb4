# What the commands and the tests share: what is run is proved and built from the source as it is now.
# Sourced, with `name` (who speaks, and target/NAME.log) and `top` (the repository) set. What cannot be done ends with status 2.
# ./test sets PROVED to a file that is older than its run of rt ci, which has passed: what that run proved and built is taken then, as it stands.

# A closed standard input would be the next file that is opened; a folder in its place opens, and cannot be read.
{ : 3<&0; } 2>/dev/null || exec </

fail() { # WHY
    printf '%s: %s\n' "$name" "$1" >&2
    exit 2
}

log=
# Fails with the last lines of the log.
failed() { # WHY
    { grep -Ev '^(logic /|statements |library |axioms )' "$log" || :; } | tail -n 20 >&2
    fail "$1; target/$name.log has the log"
}

# Says once that it takes a while.
announced=
announce() {
    if [ -z "$announced" ]; then
        printf '%s: proving and building, some minutes the first time; the log is target/%s.log\n' "$name" "$name" >&2
    fi
    announced=yes
}

# target/made/NAME has the sums of what a build was made of and of what it made: where one differs, it is made again.
made() { # NAME
    (cd "$top" && sha256sum --check --status "target/made/$1") 2>/dev/null
}
make_known() { # NAME FILE...
    local known=target/made/$1
    mkdir -p "$top/target/made"
    (cd "$top" && sha256sum "${@:2}" >"$known.new" && mv "$known.new" "$known") || fail "$known cannot be written"
}

# The crates that are named and those that they stand on, one a line, by crates.txt.
standing_on() { # CRATE...
    awk -v asked="$*" '
        function take(crate, part, n, i) {
            if (!(crate in under) || crate in taken) return
            taken[crate] = 1
            print crate
            n = split(under[crate], part, " ")
            for (i = 1; i <= n; i++) take(part[i])
        }
        { sub(/#.*/, "") }
        /:/ { split($0, side, ":"); split(side[1], word, " "); under[word[1]] = side[2] }
        END { n = split(asked, crate, " "); for (i = 1; i <= n; i++) take(crate[i]) }' "$top/crates.txt"
}

# Prints what a crate is proved and built from: the toolchain, and of the crate and of those that it stands on the lines of crates.txt and the source.
source_of() { # CRATE
    local crate part crates=() parts=()
    mapfile -t crates < <(standing_on "$1")
    for crate in "${crates[@]}"; do
        for part in src specs proofs; do
            [ ! -d "$top/crates/$crate/$part" ] || parts+=("crates/$crate/$part")
        done
    done
    [ "${#parts[@]}" -gt 0 ] || return 1
    rt version && printf '%s\n' "${crates[@]}" | awk 'NR == FNR { asked[$1] = 1; next } { split($1, word, ":") } word[1] in asked' - "$top/crates.txt" &&
        (cd "$top" && find "${parts[@]}" -type f -print0 | LC_ALL=C sort -z | xargs -0 sha256sum)
}

# Proves a crate that is a program or a static library, builds it, and keeps what was built as FILE, unless nothing changed since.
built() { # CRATE FILE COMMAND...
    local source=target/source/$1 before
    mkdir -p "$top/target/source" "$top/${2%/*}" 2>/dev/null || fail "target/source cannot be written"
    # tests that run many commands on one source have it summed once
    if [ -z "${SOURCE_KNOWN:-}" ] || [ ! -f "$top/$source" ]; then
        before=$(source_of "$1") || fail "the source of $1 cannot be read"
        printf '%s\n' "$before" >"$top/$source" || fail "$source cannot be written"
    fi
    if ! made "$1"; then
        announce
        "${@:3}" "$1" "$2" >>"$log" 2>&1 </dev/null || failed "not proved or not built: $1"
        # what changed meanwhile may have been read before or after: it is proved and built again by the next call
        [ "$(cat "$top/$source")" != "$(source_of "$1")" ] || make_known "$1" "$source" "$2"
    fi
}

# Proves and builds a program: target/bin/NAME.
program() { # CRATE
    built "$1" "target/bin/$1" build_program
}
of_this_run() { # FILE, of what rt ci builds
    [ -n "${PROVED:-}" ] && [ "$top/$1" -nt "$PROVED" ]
}
build_program() { # CRATE FILE
    # rt run runs it too, here on no input, and has no other word for building
    if ! of_this_run "crates/$1/out/$1"; then
        (cd "$top/crates/$1" && rt run) || return 1
    fi
    cp "$top/crates/$1/out/$1" "$top/$2.new" && mv "$top/$2.new" "$top/$2"
}

# Proves and builds a static library: target/staticlib/libNAME.a.
archive() { # CRATE
    built "$1" "target/staticlib/lib$1.a" build_archive
}
build_archive() { # CRATE FILE
    if build_over_proved "$1" "$top/$2.new"; then
        mv "$top/$2.new" "$top/$2"
    else
        (cd "$top/crates/$1" && rt lib) && cp "$top/crates/$1/out/lib$1.a" "$top/$2.new" && mv "$top/$2.new" "$top/$2"
    fi
}

# Builds a static library as rt lib does, over the libraries that rt ci has just proved, which rt lib would prove again: rt ci builds them for itself
# and leaves them without the stamp by which rt lib knows its own. Fails where one is not of this run: rt ci puts back what it found there.
build_over_proved() { # CRATE FILE
    local kit crate under words=()
    kit=$(dirname "$(dirname "$(readlink -f "$(command -v rt)")")")
    [ -x "$kit/bin/rattle" ] || return 1
    under=" $(sed -n "s/^$1\( [^:]*\)\{0,1\}://p" "$top/crates.txt") "
    while IFS= read -r crate; do
        [ "$crate" != "$1" ] || continue
        of_this_run "crates/$crate/out/rlib/$crate.rlib" || return 1
        words+=(-L "dependency=$top/crates/$crate/out/rlib")
        [[ $under != *" $crate "* ]] || words+=(--extern "$crate=$top/crates/$crate/out/rlib/$crate.rlib")
    done < <(standing_on "$1")
    (cd "$top/crates/$1" && "$kit/bin/rattle" build --crate-name "$1" src/lib.rt --crate-type staticlib \
        --extern "std=$kit/rlibs/std.rlib" -L "dependency=$kit/rlibs" "${words[@]}" \
        --antt-project "$kit/rattle/logic/antt-project.json" --logic-built "$kit/logic_built" --toolchain "$kit/toolchain" \
        --backend llvm --links "$1=" --jobs 2 -o "$2")
}

# Proves the library for C and writes it to target/staticlib/libbaxhiso.a: the archives of the crates that tools/library.txt names, joined. An archive
# whose crate has not changed is joined again as it is.
library() {
    local crates crate archives=()
    mapfile -t crates <"$top/tools/library.txt"
    for crate in "${crates[@]}"; do
        archive "$crate"
        archives+=("target/staticlib/lib$crate.a")
    done
    if ! made libbaxhiso; then
        announce
        (cd "$top" && joined target/staticlib/libbaxhiso.a "${archives[@]}") >>"$log" 2>&1 || failed "the library for C is not built"
        make_known libbaxhiso tools/library.txt "${archives[@]}" target/staticlib/libbaxhiso.a
    fi
}
joined() { # FILE ARCHIVE...
    local apart=$1.parts archive object
    rm -rf "$apart" "$1.new"
    for archive in "${@:2}"; do
        mkdir -p "$apart/each" && (cd "$apart/each" && ar x "$top/$archive") || return 1
        # an object's name stands once in the joined library
        for object in "$apart/each"/*; do
            mv "$object" "$apart/$(basename "$archive" .a)-${object##*/}" || return 1
        done
        rmdir "$apart/each" || return 1
    done
    ar crsD "$1.new" "$apart"/* || return 1
    rm -rf "$apart"
    mv "$1.new" "$1"
}

# Runs builds, given as a command, one at a time: a listing that is piped into lookups has two commands at work on target/.
one_at_a_time() { # COMMAND...
    command -v rt >/dev/null || fail "rt, the command of Rattle's kit, is not on the PATH"
    if [ -z "$log" ]; then
        log=$top/target/$name.log
        { mkdir -p "$top/target" && : >"$log"; } 2>/dev/null || fail "target/$name.log cannot be written"
    fi
    if command -v flock >/dev/null; then
        { exec 9>"$top/target/lock"; } 2>/dev/null && flock 9 || fail "target/lock cannot be written"
    fi
    "$@"
    exec 9>&-
}
