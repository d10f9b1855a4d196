# Shell functions for the programs of the repository in $home, lw and beyond: they say whether a program is that of the sources as they are. ./lw,
# ./beyond, test.sh and tools/program/build.py, which builds the programs, read this file.
#
# The file $made_of says of what the program was made: the files and folders, the toolchain's folder and its version, a checksum of all files, and of
# each file its size and the time when its content changed last. It is written before the build begins, so a file that changes during the build is
# seen to have changed. A copy of the repository, or one whose modes have changed, has the same content: if times differ, the checksum decides.
# $made_of.names and $made_of.times have the names, sizes and times of when the program was last found current; with them the next check is short.
unset CDPATH

# Sets the program that the functions below are about, lw or beyond: $program_name, $program and $made_of.
use_program() {
    program_name=$1
    program=$home/crates/$1/out/$1
    made_of=$home/crates/$1/out/made-of
}
use_program lw

# Runs find on the sources $paths, without what is built and wrong bodies; the arguments say what find does with them.
find_sources() {
    (cd "$home" && find $paths \( -name out -o -name must-fail \) -prune -o "$@")
}

# Prints, for each file of the sources, its name, its size and the time when its content changed, in the order in which folders have them. (A copy's
# folders may have another order: then the checksum decides.)
list_files() {
    find_sources -type f -printf '%p %s %T@\n'
}

# Prints a checksum of the names and the contents of all files of the sources.
sum_files() {
    find_sources -type f -print | LC_ALL=C sort | (cd "$home" && xargs sha256sum) | sha256sum | cut -c 1-64
}

# Prints what $made_of has of a program that is made now, of the sources $paths with the checksum $sum, by the toolchain in $kit.
list_sources() {
    printf '%s\n%s\n%s\n%s\n' "$paths" "$kit" "$version" "$sum"
    list_files
}

# Succeeds if there is no toolchain, or if it has the version by which the program was made, in whatever folder; $kit is then that folder.
is_same_toolchain() {
    rt=$(command -v rt) || return 0
    [ "$rt" -ef "$kit/bin/rt" ] || kit=$(readlink -f "$rt") && kit=${kit%/bin/rt}
    [ ! -r "$kit/KIT-ID" ] || { read -r now <"$kit/KIT-ID" && [ "$now" = "$version" ]; }
}

# Prints the checksum $sum, and the sizes and times of the files and folders that the file $1 names. To be called in a subshell, since it becomes
# the process of find.
times_of() {
    echo "$sum"
    cd "$home" && exec find -files0-from "$1" -maxdepth 0 -printf '%s %T@\n'
}

# Succeeds if all sizes and times are those of when the program was last found current. (A name that has come or gone since has changed its
# folder's time.)
is_as_it_was() {
    [ -r "$made_of.names" ] && times_of "$look.names" 2>/dev/null | cmp -s - "$made_of.times"
}

# Succeeds if the program exists and is that of the sources as they are. If there are no sources, as in a pack, it is the program that was handed on.
is_current() {
    [ -x "$program" ] || return 1
    [ -e "$home/crates.txt" ] || return 0
    [ -r "$made_of" ] || return 1
    { read -r paths && read -r kit && read -r version && read -r sum; } <"$made_of"
    made_by=$kit
    is_same_toolchain || return 1
    kit=$made_by look=crates/$program_name/out/made-of
    is_as_it_was && return
    # The names, sizes and times of now are stored for the next call, if the folder can be written and the content is the same.
    now=$look.$$
    { find_sources -print0 >"$home/$now.names" && (times_of "$now.names" >"$home/$now.times"); } 2>/dev/null || rm -f "$home/$now.names"
    list_sources 2>/dev/null | cmp -s - "$made_of" || [ "$(sum_files 2>/dev/null)" = "$sum" ]
    same=$?
    [ "$same" != 0 ] || { mv -f "$home/$now.names" "$made_of.names" && mv -f "$home/$now.times" "$made_of.times"; } 2>/dev/null || :
    rm -f "$home/$now.names" "$home/$now.times"
    return "$same"
}

# Prints the crates of the repository on which the crate $1 depends directly.
crates_below() {
    for below in $(sed -n "s/^$1: *//p" "$home/crates.txt"); do
        [ ! -d "$home/crates/$below" ] || echo "$below"
    done
}

# Prints the crates on which the crate $1 depends, directly or not, lowest first, and then $1; some of them several times.
crates_from() {
    for from in $(crates_below "$1"); do
        crates_from "$from"
    done
    echo "$1"
}

# Sets $paths, $kit, $version and $sum to what a program is made of now; $paths has its crates, lowest first. Fails if the toolchain is missing.
look_at_sources() {
    kit=$(rt doc 2>/dev/null) || {
        echo "$program_name: the toolchain's command rt does not run" >&2
        return 1
    }
    kit=${kit%/*}
    paths=crates.txt
    for crate in $(crates_from "$program_name" | awk '!seen[$0]++'); do
        paths="$paths crates/$crate"
    done
    read -r version <"$kit/KIT-ID" && sum=$(sum_files)
}

# Succeeds if a first answer is of use: standard error is a terminal, at which somebody waits; standard input is none, so that it can be read ahead for
# the program; and the output does not go into a pipe, where a program takes it.
is_watched() {
    [ -t 2 ] && [ ! -t 0 ] && [ ! -p /dev/fd/1 ] && (true <&0) 2>/dev/null
}

# Becomes the process of the program, with the arguments after the first. If the program is not that of the sources, builds it first. The first argument
# is the command that the others name: if it is one of lw's and `is_watched` succeeds, an answer is shown before the proof.
run_program() {
    command=$1
    shift
    if ! is_current; then
        case $command in
            states | schedules | compile | replay)
                ! is_watched || exec python3 -B "$home/tools" program.build --program "$program_name" --first-answer "$@"
                ;;
        esac
        python3 -B "$home/tools" program.build --program "$program_name" || exit 5
    fi
    exec "$program" "$@"
}
