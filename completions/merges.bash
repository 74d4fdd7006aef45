# Completion of merges for bash: options that were not given yet, files, and the words of --order.
_merges() {
    local options="--null --order --from --to --copies --out-delimiter --help --version"
    local word=${COMP_WORDS[COMP_CWORD]} before=${COMP_WORDS[COMP_CWORD - 1]}
    # `--null=a` is three words here: --null, = and a.
    if [[ $word == = ]]; then
        word=
    elif [[ $before == = ]]; then
        before=${COMP_WORDS[COMP_CWORD - 2]}
    fi
    COMPREPLY=()
    if [[ $before == --null || $before == --from || $before == --to || $before == --copies ]]; then
        return
    elif [[ $before == --out-delimiter ]]; then
        mapfile -t COMPREPLY < <(compgen -W "tab" -- "$word")
    elif [[ $before == --order ]]; then
        mapfile -t COMPREPLY < <(compgen -W "pairs left" -- "$word")
    elif [[ $word == -* ]]; then
        local option left=
        for option in $options; do
            [[ " ${COMP_WORDS[*]:1:COMP_CWORD-1} " == *" $option "* ]] || left+=" $option"
        done
        mapfile -t COMPREPLY < <(compgen -W "$left" -- "$word")
    else
        compopt -o filenames 2>/dev/null
        mapfile -t COMPREPLY < <(compgen -f -- "$word")
    fi
}
complete -F _merges merges
