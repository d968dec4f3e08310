# What ./planner, ./ladders, ./install, bench/run and the tests share where they build into target/. It is sourced, by bash, with `here` the repository's
# folder and `me` the name that messages begin with. Sources and results are named from the repository's folder.
#
# Ahead of each use a result (the library, a program) is looked at. Kept of it in target/built/ are
#     NAME.seen    names, sizes and times of its files, when it was last found current: where they are the same nothing is read
#     NAME.sums    a checksum of the result, and one of what it was built from: where times alone differ nothing is built
#     NAME.began   there while it is built; a build that was killed leaves it, and nothing is made of what stands there then
# and of all of them together
#     lock         held by whoever builds; it names the result whose build failed last, for those who waited for it
# docs/DECISIONS.md, "Builds", has the reasons.
# shellcheck shell=bash
# shellcheck disable=SC2154

archive=target/staticlib/libragymolev.a
planner=target/planner/planner
ladders=target/bin/ladders
compiler=${CC:-cc}
built=$here/target/built

cannot_build() { # WORDS..
    echo "$me: $*" >&2
    exit 1
}

# ---- what a result is made of

# A line `LEVEL crates/NAME` for each crate that a crate is made of, by crates.txt.
crates_of() { # NAME
    awk -v wanted="$1" '
        function visit(name,    used, n, i) {
            if (name in level || !(name in uses)) return
            level[name] = 0
            n = split(uses[name], used, " ")
            for (i = 1; i <= n; i++) {
                visit(used[i])
                if (used[i] in level && level[used[i]] >= level[name]) level[name] = level[used[i]] + 1
            }
            print level[name] " crates/" name
        }
        { sub(/#.*/, "") }
        split($0, line, ":") == 2 { sub(/ .*/, "", line[1]); uses[line[1]] = line[2] }
        END { visit(wanted) }' "$here/crates.txt"
}

# Each file by name, size, time of its contents and time of its status. The last one changes with every change of the contents, and no program sets it back.
# Edits that must fail are no sources, and what rt leaves in a crate's out/ is none. A find without -printf lists nothing; then checksums decide. It changes
# the folder, and is asked in `$(..)` alone.
seen() { # FILES AND FOLDERS..
    cd "$here" && find "$@" \( -name must-fail -o -name out \) -prune -o -type f -printf '%p %s %T@ %C@\n' 2>/dev/null
}

# One checksum of all files, names and contents; nothing where there is no program for it. Asked in `$(..)` too.
sum_of() { # FILES AND FOLDERS..
    local summer=sha256sum
    command -v "$summer" >/dev/null || summer='cksum'
    command -v "$summer" >/dev/null || return
    cd "$here" && find "$@" \( -name must-fail -o -name out \) -prune -o -type f -exec "$summer" {} + 2>/dev/null | LC_ALL=C sort | "$summer"
}

# ---- whether it is current

# Whether a source, or a folder of sources, is newer than the result. A crate's own folder is none: rt makes and removes out/ in it.
newer() { # RESULT SOURCES..
    [ -n "$(cd "$here" && find "${@:2}" \( -name must-fail -o -name out \) -prune -o \( -type f -o -path '*/*/*' \) -newer "$1" -print | head -n 1)" ]
}

# A file in target/built/, whole or not at all. Where it cannot be written nothing is lost: the next use looks again.
keep() { # FILE TEXT
    { mkdir -p "$built" && printf '%s\n' "$2" >"$built/$1.$$" && mv -f "$built/$1.$$" "$built/$1"; } 2>/dev/null || rm -f "$built/$1.$$" 2>/dev/null
}

# Whether RESULT is what its sources give: nothing was touched since it was found so, or the checksums are those that were kept. Where others are, and the
# result, on the last line, is not the file that was seen then, somebody else has put it there, and times decide.
current() { # NAME RESULT SOURCES..
    local files before='' sums
    [ -f "$here/$2" ] || return 1
    files=$(seen "${@:3}" "$2")
    [ ! -f "$built/$1.seen" ] || before=$(<"$built/$1.seen")
    [ -z "$files" ] || [ "$files" != "$before" ] || return 0
    sums=$(sum_of "$2" && sum_of "${@:3}")
    if [ -z "$sums" ] || [ ! -f "$built/$1.sums" ] || [ "$sums" != "$(<"$built/$1.sums")" ]; then
        [ ! -f "$built/$1.sums" ] || [ "${files##*$'\n'}" != "${before##*$'\n'}" ] || return 1
        [ ! -e "$built/$1.began" ] && ! newer "${@:2}" || return 1
    fi
    keep "$1.sums" "$sums"
    keep "$1.seen" "$files"
    return 0
}

# ---- one build at a time

# Takes the lock, if it is not held yet; `waited` says whether somebody else had it. It goes with the process and with what that started, since rt works on
# when its script is killed; a script lets it go when all is built. A lock that is no longer the file of that name went with target/, and is taken again.
held=
waited=
lock() {
    local _
    [ -z "$held" ] || return 0
    held=yes
    for _ in 1 2 3; do
        { mkdir -p "$built" && exec 9>>"$built/lock"; } 2>/dev/null || cannot_build "$here/target cannot be written"
        flock -n 9 2>/dev/null
        case $? in
        0) ;;
        1)
            [ -n "$waited" ] || echo "$me: another build is under way; waiting for it" >&2
            waited=yes
            flock 9 || cannot_build "waiting for $built/lock failed"
            ;;
        *) # there is no flock, or target/ is on a drive without locks
            echo "$me: builds cannot be kept apart here (flock): start nothing else that builds until this is done" >&2
            return 0
            ;;
        esac
        [ ! "$built/lock" -ef /dev/fd/9 ] || return 0
    done
    cannot_build "$built/lock goes away while it is locked"
}
unlock() {
    held=
    exec 9>&-
}

# ---- building

# Shows on a terminal which crate is being proved, from the line that rt prints ahead of each, but of those that are there already; one line, in place.
show_crates() { # HOW-MANY
    local part='' line at=0 name=
    while :; do
        IFS= read -r -t 1 line
        case $? in
        0) line=$part$line && part='' ;;
        1) break ;;
        *) part+=$line && line='' ;; # a second without a whole line
        esac
        case $line in 'rt: chose --jobs '*' for '*) at=$((at + 1)) && name=${line##* } ;; esac
        [ "$at" -eq 0 ] || printf '\r%-70s' "$me: crate $at of at most $1, $name; $((SECONDS - began)) s" >&2
    done
    printf '\r%-70s\r' '' >&2
}

# Has rt do what WORD says with a crate: `lib` builds a static library, `run` a program, and starts it, on no input. `log` gets what it prints. What it made
# lies in the crate's out/, which the next rt may remove, and is copied to RESULT, whole or not at all.
run_rt() { # WHAT WORD CRATE MADE RESULT
    local began=$SECONDS crates
    echo "$me: proving and building the $1; from nothing this takes some minutes" >&2
    if [ -t 2 ]; then
        mapfile -t crates < <(crates_of "$3")
        (cd "$here/crates/$3" && rt "$2") </dev/null 2>&1 | tee "$log" | show_crates "${#crates[@]}"
        [ "${PIPESTATUS[0]}" -eq 0 ] || return 1
    else
        (cd "$here/crates/$3" && rt "$2") </dev/null >"$log" 2>&1 || return 1
    fi
    mkdir -p "$here/${5%/*}" && cp "$here/crates/$3/out/$4" "$here/$5.new" && mv -f "$here/$5.new" "$here/$5"
}

# Builds RESULT by a command where it is not current. One build at a time; who waited for one looks again, and fails where that one failed. What is kept of
# the sources is how they were ahead of the build: a change meanwhile is seen the next time. `log` stays where the build failed.
build_result() { # NAME RESULT WHO-SAYS COMMAND WORDS.. -- SOURCES..
    local name=$1 result=$2 who=$3 command=() files sum log=$here/target/$1-build.log
    shift 3
    while [ "$1" != -- ]; do command+=("$1") && shift; done
    shift
    lock
    if [ -n "$waited" ]; then
        ! current "$name" "$result" "$@" || return 0
        [ "$(<"$built/lock")" != "$name" ] || cannot_build "the build that was waited for failed; $log has what $who said"
    fi
    files=$(seen "$@")
    sum=$(sum_of "$@")
    { : >"$built/lock" && : >"$built/$name.began" && : >"$log"; } 2>/dev/null || cannot_build "$here/target cannot be written"
    if ! "${command[@]}" || [ ! -f "$here/$result" ]; then
        echo "$name" >"$built/lock"
        rm -f "$built/$name.began"
        cannot_build "the build failed; $log has what $who said"
    fi
    keep "$name.sums" "$(sum_of "$result" && printf '%s\n' "$sum")"
    keep "$name.seen" "$files"$'\n'"$(seen "$result")"
    rm -f "$built/$name.began" "$log"
}

# Has rt prove a crate, and build what it is for, where that is not current.
build_crate() { # NAME RESULT WHAT WORD CRATE MADE
    local sources
    mapfile -t sources < <(crates_of "$5")
    sources=(crates.txt "${sources[@]#* }")
    ! current "$1" "$2" "${sources[@]}" || return 0
    command -v rt >/dev/null || cannot_build "the $3 is to be built, and 'rt' of the Rattle kit is not on the PATH"
    build_result "$1" "$2" rt run_rt "${@:3}" "$2" -- "${sources[@]}"
}

build_library() { build_crate library "$archive" library lib ragymolev libragymolev.a; }
build_ladders() { build_crate ladders "$ladders" program run ladders ladders; }
build_example() { build_crate example target/bin/example program run example example; }
build_bench_runs() { build_crate bench_runs target/bin/bench_runs program run bench_runs bench_runs; }

# The program of ./planner from its sources; it is put in its place whole, since another use may be starting it.
compile_planner() {
    mkdir -p "$here/target/planner" &&
        "$compiler" -std=c11 -O2 "$here"/command/*.c "$here/$archive" -o "$here/$planner.new" &&
        mv -f "$here/$planner.new" "$here/$planner"
}
compile_to_log() { compile_planner >"$log" 2>&1; }

# Builds it where its sources, the header or the library are others; the library comes first.
build_planner() {
    local sources=("$here"/command/*.c "$here"/command/*.h "$here"/include/*.h)
    sources=("${sources[@]#"$here/"}" "$archive")
    ! current planner "$planner" "${sources[@]}" || return 0
    command -v "$compiler" >/dev/null || cannot_build "the program is to be built, and there is no C compiler '$compiler'"
    build_result planner "$planner" 'the compiler' compile_to_log -- "${sources[@]}"
}
