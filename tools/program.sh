# shellcheck shell=sh disable=SC2154
# Which program is of these sources, and how one is built: functions of ./quilt and of the tools beside this file, which set here to the folder of the
# checkout and have a function fail. A program is told by two digests, its own and that of its sources.

# The kit that the program was last built with, as `rt version` calls it.
tried='rattle-kit-13f logic dac8208d650f15bf'

out=$here/crates/quilt/out
# Where a program is built, and one that came with the checkout, seen from there.
built=crates/quilt/out/quilt
released=release/quilt
# The digest of the sources that the built program is of, and its own.
record=$out/quilt.digest
# The program that was last found current, the folders of its sources, and how each file stood then.
listing=$out/quilt.listing
log=$out/build.log
is_forced=
# The program that worked before a build, and its record.
older=$out/quilt.old

# stands_on NAME..: these crates and all those of crates.txt that they stand on, one a line
stands_on() {
    awk -v names="$*" '
        { sub(/#.*/, "") }
        /:/ { name = $1; sub(/:.*/, "", name); sub(/^[^:]*:/, ""); below[name] = $0 }
        END {
            last = split(names, todo, " ")
            for (i = 1; i <= last; i++) {
                if (!(todo[i] in below) || todo[i] in seen) continue
                seen[todo[i]]
                print todo[i]
                count = split(below[todo[i]], more, " ")
                for (k = 1; k <= count; k++) todo[++last] = more[k]
            }
        }' "$here/crates.txt"
}

# The folders of what the program stands on, in one line.
folders_of_sources() {
    stands_on quilt | sed 's|.*|crates/&/src crates/&/specs crates/&/proofs|' | paste -s -d ' '
}

# find_sources TESTS..: the source files that pass these tests of find, and their folders
find_sources() {
    # shellcheck disable=SC2046 # the names of crates are plain words
    (cd "$here" && find $(folders_of_sources) "$@" 2>/dev/null)
}

# The lines of crates.txt on what the program stands on, without remarks and spare spaces.
lines_of_crates() {
    stands_on quilt | awk '
        NR == FNR { wanted[$1]; next }
        { sub(/#.*/, "") }
        /:/ { name = $1; sub(/:.*/, "", name); if (name in wanted) { $1 = $1; print } }' - "$here/crates.txt"
}

# digest_of FILE
digest_of() {
    sha256sum <"$1" | cut -c 1-64
}

digest_of_sources() {
    {
        lines_of_crates
        find_sources -type f -exec sha256sum {} +
    } | LC_ALL=C sort | sha256sum | cut -c 1-64
}

# word_of FILE NAME: what stands behind this name in a file of digests
word_of() {
    sed -n "s/^$2 //p" "$1" 2>/dev/null
}

# write_digests FILE SOURCES PROGRAM KIT: what a program that is handed on was built from and by, and its own digest
write_digests() {
    printf 'sources %s\nprogram %s\nkit %s\n' "$2" "$3" "$4" >"$1.new" && mv "$1.new" "$1"
}

# write_record DIGEST: the built program is of sources of this digest
write_record() {
    (echo "$1 $(digest_of "$here/$built")" >"$record.$$" && mv "$record.$$" "$record") 2>/dev/null
}

# is_built_of DIGEST: the built program is of sources of this digest
is_built_of() {
    [ -x "$here/$built" ] || return 1
    if [ -f "$record" ]; then
        [ "$(cat "$record")" = "$1 $(digest_of "$here/$built")" ]
        return
    fi
    # A program that rt was asked for without this file is taken where no source is newer.
    [ -z "$(find_sources -newer "$here/$built" | head -n 1)" ] || return 1
    [ -z "$(find "$here/crates.txt" -newer "$here/$built")" ] || return 1
    write_record "$1" || true
}

# The program of release/ is as it was put there, and can be run here.
is_release_whole() {
    [ -x "$here/$released" ] && [ "$(uname -s) $(uname -m)" = 'Linux x86_64' ] || return 1
    [ "$(word_of "$here/release/digests" program)" = "$(digest_of "$here/$released")" ] || return 1
    "$here/$released" </dev/null >/dev/null 2>&1
    [ $? -eq 2 ]
}

# is_released_of DIGEST: the program of release/ is of sources of this digest
is_released_of() {
    [ "$(word_of "$here/release/digests" sources)" = "$1" ] && is_release_whole
}

# The kit that is on this machine, as it calls itself, or nothing.
kit_here() {
    rt version 2>/dev/null | head -n 1
}

# The kit here is the one that the program of release/ was made with. Another may compile the same sources to other bytes.
is_released_by_this_kit() {
    [ "$(word_of "$here/release/digests" kit)" = "$(kit_here)" ]
}

# list_files FOLDER..: how the sources and the programs stand: sizes, times of change, and numbers on the disk
list_files() {
    (cd "$here" && find crates.txt "$@" release "$built" "$record" -printf '%p %s %T@ %C@ %i\n' 2>/dev/null)
}

# Sets program to the one that was last found current, if nothing has changed since.
is_listed() {
    { read -r found && read -r folders; } 2>/dev/null <"$listing" || return 1
    case $found in "$built" | "$released") ;; *) return 1 ;; esac
    # shellcheck disable=SC2086 # the folders are plain words
    {
        printf '%s\n%s\n' "$found" "$folders"
        list_files $folders
    } | cmp -s - "$listing" || return 1
    program=$here/$found
}

# write_listing FILES: what was found is current where the files stand so. A file that changed within the last two seconds could change again at what
# its times call the same moment, so nothing is noted then.
write_listing() {
    newest=$(printf '%s\n' "$1" | awk '{ if ($(NF - 1) > newest) newest = $(NF - 1) } END { printf "%d", newest }')
    [ -n "$1" ] && [ "$newest" -lt $(($(date +%s) - 2)) ] || return 0
    (printf '%s\n%s\n%s\n' "$found" "$folders" "$1" >"$listing.$$" && mv "$listing.$$" "$listing") 2>/dev/null || true
}

# Sets program to the one that is of these sources: the one that was built here before the one of release/.
find_current() {
    ! is_listed || return 0
    command -v sha256sum >/dev/null 2>&1 || return 1
    folders=$(folders_of_sources)
    # shellcheck disable=SC2086 # the folders are plain words
    files=$(list_files $folders)
    sources=$(digest_of_sources)
    if is_built_of "$sources"; then
        found=$built
    elif is_released_of "$sources"; then
        found=$released
    else
        return 1
    fi
    program=$here/$found
    [ -d "$out" ] || mkdir -p "$out" 2>/dev/null
    write_listing "$files"
}

# is_as_recorded PROGRAM RECORD: the program is the one that its record tells of
is_as_recorded() {
    [ -x "$1" ] && [ -f "$2" ] && [ "$(cut -d ' ' -f 2 "$2")" = "$(digest_of "$1")" ]
}

# Sets program to one that worked, whatever sources it is of.
find_older() {
    if is_as_recorded "$older" "$older.digest"; then
        program=$older
    elif is_as_recorded "$here/$built" "$record"; then
        program=$here/$built
    elif is_release_whole; then
        program=$here/$released
    else
        return 1
    fi
}

# Puts the program that worked aside before a build. It stays there where a build is cut off.
keep_older() {
    [ ! -x "$here/$built" ] || [ -f "$record" ] || write_record unknown
    is_as_recorded "$here/$built" "$record" || return 0
    cp -p "$here/$built" "$older" && mv "$record" "$older.digest"
}

# Puts the program that worked back where it was.
restore_older() {
    ! is_as_recorded "$older" "$older.digest" || { mv "$older" "$here/$built" && mv "$older.digest" "$record"; }
}

# lanes: how many processes work side by side: RT_JOBS, or one for each processor, as far as memory has 2 GB for each and 2 GB besides
lanes() {
    most=$(nproc 2>/dev/null || echo 1)
    lanes=$(awk '$1 == "MemAvailable:" { print int(($2 / 1000000 - 2) / 2) }' /proc/meminfo 2>/dev/null)
    lanes=${lanes:-1}
    [ "$lanes" -le "$most" ] || lanes=$most
    [ "$lanes" -ge 1 ] || lanes=1
    echo "${RT_JOBS:-$lanes}"
}

# Copies the sources of the program alone to a repository of their own, with no tests and no edits.
lay_out() {
    rm -rf "$side"
    mkdir -p "$side/.git" "$side/crates" || return
    lines_of_crates >"$side/crates.txt"
    cp "$here/HANDLES" "$side" 2>/dev/null
    for name in $(stands_on quilt); do
        mkdir "$side/crates/$name" || return
        for part in src specs proofs args stdin stdout status data; do
            [ ! -e "$here/crates/$name/$part" ] || cp -R "$here/crates/$name/$part" "$side/crates/$name" || return
        done
    done
}

# Whether rt keeps what it proved beside the kit, where other runs of it find it.
keeps() {
    store=$(dirname "$(dirname "$(rt doc)")")/rattle-kept
    mkdir -p "$store" 2>/dev/null && [ -O "$store" ]
}

# below NAME: what this crate stands on, one a line
below() {
    stands_on "$1" | grep -v -x "$1"
}

# free_of NAME: those of the crates on standard input that do not stand on this one, and are not it
free_of() {
    while read -r name; do
        stands_on "$name" | grep -q -x "$1" || echo "$name"
    done
}

# begin WORDS..: runs these words, and notes under which number
begin() {
    # shellcheck disable=SC2016 # that shell's number
    sh -c 'echo "$$" >>"$1"; shift; exec "$@"' sh "$out/rt.pid" "$@"
}

# ahead NAME..: proves these crates one after the other, each with the number of processes that RT_JOBS says, or else with as many as rt gives to one
# that no other is proved beside
ahead() {
    for name in "$@"; do
        # shellcheck disable=SC2086 # no word, or two
        begin env -u CI $lets_through rt ci "$name" || return
    done
}

# behind MORE NAME..: proves these crates side by side, behind what is proved ahead. Each run takes what another has proved, and waits for what another is
# proving, for which so many processes more are at work.
behind() {
    jobs=$(($(lanes) + $1))
    shift
    # shellcheck disable=SC2086 # no word, or two
    begin env -u CI RT_JOBS="$jobs" nice -n 5 $lets_through rt ci "$@"
}

# tree_first NAME..: proves the tree with several processes, and then these crates, among which are those that stand on it
tree_first() {
    (unset RT_JOBS && ahead quilt_btree) && behind 2 "$@"
}

# Proves most of what the program stands on. Where crates can be proved side by side, rt gives one process to each, and would end with the longest chain of
# them alone. So what most of the others wait for is proved ahead: what all stand on, with several processes; the tree, with several too, and the language, whose
# crates stand on each other, beside what stands on neither; then all that lies below the session; and then the session, beside what need not lie there. No run
# that gives one process to each may come to the tree first, so the one beside it has nothing that stands on it.
prove_most() {
    # A shell has what it puts into the background pass over interrupts, which have to come to rt.
    lets_through=
    ! env --default-signal=INT true 2>/dev/null || lets_through='env --default-signal=INT'
    (unset RT_JOBS && ahead quilt_types) || return
    # shellcheck disable=SC2046 # the names of crates are plain words
    tree_first $(below quilt_map) &
    tree=$!
    (RT_JOBS=1 && export RT_JOBS && ahead quilt_words quilt_lang quilt_replies) &
    language=$!
    # shellcheck disable=SC2046
    behind 0 $(below quilt_map | free_of quilt_btree | free_of quilt_words)
    rest=$?
    wait "$tree"
    tree=$?
    wait "$language"
    [ "$? $tree $rest" = '0 0 0' ] || return 1
    (unset RT_JOBS && ahead quilt_map) &
    session=$!
    # shellcheck disable=SC2046
    behind 1 $(stands_on quilt | free_of quilt_map)
    rest=$?
    wait "$session" && return "$rest"
}

# Proves and builds the program, as the gate does: rt runs it too. Where one process is to work at a time, or rt keeps nothing, one run proves all.
prove() {
    side=$out/side
    (
        # (no gate runs over a folder in which such a copy was left)
        trap 'rm -rf "$side"' EXIT
        trap 'exit 130' INT HUP TERM
        lay_out && cd "$side" || exit
        [ "$(lanes)" -eq 1 ] || ! stands_on quilt | grep -q -x quilt_map || ! keeps || prove_most || exit
        begin rt ci && mv crates/quilt/out/quilt "$here/$built"
    )
}

# The crates that are told to be proved by what is said on standard input, one a line.
proved_by() {
    sed -n -E 's/^rt: ([a-z0-9_]+) (proved|is kept: .*)$/\1/p' | sort -u
}

# Reads what a build says, and tells how far it is, a line for each crate. Succeeds where the build does.
tell_progress() {
    all=$(stands_on quilt | wc -l)
    proved=' ' count=0 built_well=1
    while read -r word name rest; do
        case "$word $rest" in
        'rt: proved' | 'rt: is kept: '*)
            case $proved in *" $name "*) continue ;; esac
            proved="$proved$name " count=$((count + 1))
            [ -t 2 ] || echo "quilt: $count of $all crates proved" >&2
            ;;
        'ended '*) built_well=$name ;;
        esac
    done
    return "$built_well"
}

# How many functions are told to be proved by what is said on standard input.
functions_in() {
    awk '/^logic=proved functions=/ { sub(/^functions=/, "", $2); all += $2 } END { print all + 0 }'
}

# The crates that are being proved by each rt of these numbers, in one line.
crates_under_way() {
    for number in "$@"; do
        # shellcheck disable=SC2013 # they are numbers in one line
        for child in $(cat "/proc/$number/task/"*/children 2>/dev/null); do
            # (it may have ended meanwhile)
            { tr '\0' '\n' <"/proc/$child/cmdline"; } 2>/dev/null | sed -n '/^--crate-name$/{n;p;q;}'
        done
    done | sort -u | paste -s -d ' '
}

# bar DONE ALL: twenty places, filled as far as it is done
bar() {
    awk -v done="$1" -v all="$2" 'BEGIN { for (i = 0; i < 20; i++) printf i * all < done * 20 ? "#" : "." }'
}

# watch NUMBER: while the call of this number lives, tells on the terminal each second how far its build is
watch() {
    all=$(stands_on quilt | wc -l)
    began=$(date +%s)
    columns=$(stty size 2>/dev/null <&2 | cut -d ' ' -f 2)
    while kill -0 "$1" 2>/dev/null; do
        count=$(proved_by <"$log" | wc -l)
        spent=$(($(date +%s) - began))
        # shellcheck disable=SC2046 # the numbers are plain words
        line=$(printf 'quilt: [%s] %d:%02d, %d of %d crates, %d functions, %s' "$(bar "$count" "$all")" $((spent / 60)) $((spent % 60)) \
            "$count" "$all" "$(functions_in <"$log")" "$(crates_under_way $(cat "$out/rt.pid" 2>/dev/null))")
        printf '\r%.*s\033[K' "$((${columns:-80} - 1))" "$line" >&2
        sleep 1
    done
}

# Says what a build that failed said last, and which kits it is about.
tell_failure() {
    echo "quilt: the program was not built; $log says why, and ends in" >&2
    grep -v -E '^(statements .*|library .*|rt: .* NOT PROVED: its library .*|rt: FAILED: .*|[0-9]+ passed, .*|ended [0-9]+)$' "$log" | tail -n 12 | sed 's/^/    /' >&2
    echo "quilt: the kit here is $kit, and the one last tried is $tried" >&2
    ! find_older || echo 'quilt: with --old as its first word it takes the program that worked before' >&2
    exit 126
}

# Builds the program, where no other call has built it meanwhile, or where is_forced has a word. The lock is descriptor 9.
build() {
    for tool in rt flock sha256sum; do
        command -v "$tool" >/dev/null 2>&1 || fail 127 "$tool, which is needed to build the program, is not on this machine"
    done
    kit=$(kit_here)
    kit=${kit:-one that does not tell its version}
    { mkdir -p "$out" && : >>"$out/quilt.lock"; } 2>/dev/null || fail 126 "the program is to be built, and $out cannot be written"
    exec 9>>"$out/quilt.lock"
    if ! flock -n 9; then
        echo 'quilt: another call is building the program; waiting for it' >&2
        flock 9
        if [ -z "$is_forced" ] && find_current; then return 0; fi
    fi
    build_alone
}

# Builds the program, with the lock held.
build_alone() {
    restore_older
    if [ -n "$is_forced" ]; then
        echo "quilt: proving and building the program with $kit" >&2
    elif [ -e "$here/$built" ]; then
        echo "quilt: the sources changed; proving and building what stands on the change with $kit" >&2
    else
        echo "quilt: proving and building the program with $kit; the first time this takes many minutes" >&2
    fi
    keep_older
    # No program is current from here on until this build has succeeded.
    echo building >"$record"
    sources=$(digest_of_sources)
    : >"$log"
    rm -f "$out/rt.pid"
    if [ -t 2 ]; then
        watch $$ 9>&- &
        watcher=$!
    fi
    {
        prove
        echo "ended $?"
    } 2>&1 | tee "$log" | tell_progress
    is_built=$?
    if [ -t 2 ]; then
        kill "$watcher" 2>/dev/null
        printf '\r\033[K' >&2
    fi
    if [ "$is_built" -eq 0 ] && [ -x "$here/$built" ]; then
        write_record "$sources"
        rm -f "$older" "$older.digest"
    else
        restore_older
        tell_failure
    fi
}

# Tells which commit and kit this is, and whether a program is there.
tell_origin() {
    commit=$(git -C "$here" log -1 --format='%h of %cs' 2>/dev/null)
    kit=$(kit_here)
    echo "Commit: ${commit:-not known}. Kit: ${kit:-no rt is on this machine}; last tried: $tried"
    if find_current </dev/null >/dev/null; then
        by=
        [ "$found" != "$released" ] || by=", which was built with $(word_of "$here/release/digests" kit)"
        echo "Program: $program, of these sources$by"
    else
        echo "Program: none of these sources. The first call proves and builds it, which took 65 minutes of the processor, 22 on the clock of four that did"
        echo "nothing else, and 2 GB of disk, with 2 GB of memory for each processor and 2 GB more"
    fi
}
