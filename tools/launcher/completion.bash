# Completes the words of board: its commands, as its help tells them, and files.
_board() {
    local word=${COMP_WORDS[COMP_CWORD]} commands
    if [ "$COMP_CWORD" -eq 1 ]; then
        commands=$("$1" --help 2>/dev/null | sed -n 's/^  \(-*[a-z][a-z]*\)\( .*\|$\)/\1/p')
        mapfile -t COMPREPLY < <(compgen -W "$commands" -- "$word")
    else
        mapfile -t COMPREPLY < <(compgen -f -- "$word")
    fi
}
complete -o filenames -F _board board
