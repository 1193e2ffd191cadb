# shellcheck shell=sh disable=SC2154 # the caller sets `root`
# What ./board and an installed board share: they set `root`, the folder that has tools/, and then read this file.

# Ends what was begun last by a signal, and then this script. Where that has gone meanwhile nothing is said.
# shellcheck disable=SC2317 # by a trap
end_by() {
    trap '' HUP INT QUIT TERM
    [ -z "$!" ] || { kill "$!" && wait "$!"; } 2>/dev/null
    trap - "$1"
    kill -s "$1" $$
}

end_by_signals() {
    for signal in HUP INT QUIT TERM; do
        # shellcheck disable=SC2064 # its name now
        trap "end_by $signal" "$signal"
    done
}

has_python() { command -v python3 >/dev/null; }

# Waits for what was begun last, and takes its status. A shell that says by which signal it ended is not heard.
wait_for_it() {
    { wait "$!"; } 2>/dev/null
    status=$?
}

# Says why a program refused the words given. Its status stays.
say_why() {
    refused=$status
    python3 "$root/tools/launch" say-why "$@" &
    wait_for_it
    status=$refused
}

# Whether a folder has a program, and nothing that it was made of has another time than when it was looked at, as
# `unchanged` there tells; that sees too whether the file that the words name is long.
is_unchanged() {
    [ -x "$1/board" ] && [ -x "$1/unchanged" ] || return 1
    "$1/unchanged" "$root/" "$2"
    case $? in 0) ;; 10) is_long=1 ;; *) return 1 ;; esac
}

# Lets the C library ask the system for large pages, of which fewer are handed out, and take 1 MiB and more from it,
# where zeros cost nothing. For a long script it takes 32 MiB at a time: a short one would pay for pages that it does
# not fill.
ask_for_pages() {
    asked=glibc.malloc.hugetlb=1:glibc.malloc.mmap_threshold=1048576
    [ -z "${is_long-}" ] || asked=$asked:glibc.malloc.top_pad=33554432
    export GLIBC_TUNABLES="$asked${GLIBC_TUNABLES:+:$GLIBC_TUNABLES}" # what the caller asks comes last, and counts
}

# Runs a program with the words given, and says why where it refused them. Its status is in `status`.
run() {
    trap '' XFSZ # a write past the limit of a file's size fails, and does not end the program
    ask_for_pages
    [ "${BOARD_QUIET-}" != 1 ] || exec "$@"
    end_by_signals
    if { true 3<&0; } 2>/dev/null; then exec 3<&0; else exec 3</dev/null; fi
    "$@" <&3 3<&- &
    wait_for_it
    case $status in
    [1245679]) ! has_python || say_why "$@" ;;
    esac
}
