# Completion of jql for bash. Written by tools/completions.py from the options of crates/jq_cli.

_jql() {
    local word=${COMP_WORDS[COMP_CWORD]} at
    COMPREPLY=()
    for (( at = 1; at < COMP_CWORD; at++ )); do
        # After -- no word is an option.
        [[ ${COMP_WORDS[at]} == -- ]] && return
    done
    # The words of an option are neither options nor files.
    if [[ ${COMP_WORDS[COMP_CWORD-1]} == @(--arg|--argjson|--depth) ]] ||
        { (( COMP_CWORD > 2 )) && [[ ${COMP_WORDS[COMP_CWORD-2]} == @(--arg|--argjson) ]]; }; then
        compopt +o default
    elif [[ $word == -* ]]; then
        COMPREPLY=($(compgen -W '-c --compact-output -r --raw-output -j --join-output -n --null-input -s --slurp -e --exit-status -S --sort-keys -M --monochrome-output --arg --argjson --depth --live --follow --explain -h --help -V --version' -- "$word"))
    fi
}
complete -o default -F _jql jql
