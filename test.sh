#!/bin/sh
# Proves every crate and its tests by rt ci, tries the wrong bodies that the prover must refuse, runs the tests and the
# program, and then what the documents and the examples say of the program. Near the end it prints where the time went; the last
# line is 'N passed, M failed'.
#
# What an earlier rt ci passed on this machine, by checksums of all that it read, rt takes again; 'rt ci --anew' proves it anew.
#
# With --quick nothing is proved anew: what the documents, the examples and the tables say is compared with the program that is built for
# these sources, in some minutes. (Where there is none, it is built first.)
case $0 in
    */*) home=${0%/*} ;;
    *) home=. ;;
esac
. "$home/tools/program/program.sh"
cd "$home" && home=. || exit 1
case $* in
    '') ;;
    --quick) exec python3 tools/check_documents.py --quick ;;
    *)
        echo "usage: ./test.sh [--quick]" >&2
        exit 2
        ;;
esac

room=$(mktemp -d) || exit 1
trap 'rm -rf "$room"' EXIT

# Runs a part of the gate by tools/gate/gate_times.py with the words after the first, and keeps its lines in the file $1.
run_part() {
    log=$room/$1
    shift
    {
        python3 tools gate.gate_times --into "$room/times" "$@"
        echo $? >"$log.status"
    } | tee "$log"
    return "$(cat "$log.status")"
}

# The number of what has passed, and of what has failed, by the last line of a log.
passed_in() {
    sed -n '$s/^\([0-9]*\) passed, .*/\1/p' "$room/$1"
}
failed_in() {
    sed -n '$s/^.* passed, \([0-9]*\) failed$/\1/p' "$room/$1"
}

# (rt ci would put libraries of earlier runs back in place of those that it proves.)
rm -rf crates/lw/out/build crates/*/out/rlib
for it in beyond lw; do
    use_program "$it"
    look_at_sources && list_sources >"$room/made-of-$it" || exit 1
done
run_part gate rt ci || {
    cat "$room/times"
    exit 1
}

# What the gate has proved and built are the programs of these sources.
for it in beyond lw; do
    use_program "$it"
    mv "$room/made-of-$it" "$made_of"
    is_current || {
        echo "the sources have changed during the gate"
        exit 1
    }
done
python3 tools gate.check_edits "$room/gate" >"$room/edits"
sed '$d' "$room/edits"
python3 tools gate.check_trusted "$room/gate" || exit 1
# The library and its modules, which rt ci proves, and does not make.
run_part library --row library python3 tools/build_wasm.py --after-rt-ci || exit 1
run_part documents --row documents python3 tools/check_documents.py
cat "$room/times"

[ -n "$(failed_in edits)" ] && [ -n "$(failed_in documents)" ] || exit 1
failed=$(($(failed_in edits) + $(failed_in documents)))
told="$(($(passed_in gate) + $(passed_in documents))) passed, $failed failed"
echo "$told"
[ "$failed" = 0 ] || exit 1
# For tools/pack.py.
printf '%s\n%s\n' "$sum" "$told" >crates/lw/out/gate
