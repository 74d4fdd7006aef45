# Completion of arrivals for bash: options that were not given yet.
_arrivals() {
    local options="--partition --senders --block --gaps --help --version"
    local word=${COMP_WORDS[COMP_CWORD]} before=${COMP_WORDS[COMP_CWORD - 1]}
    # `--block=4` is three words here: --block, = and 4.
    if [[ $word == = ]]; then
        word=
    elif [[ $before == = ]]; then
        before=${COMP_WORDS[COMP_CWORD - 2]}
    fi
    COMPREPLY=()
    case $before in
        --partition | --senders | --block) ;;
        *)
            local option left=
            for option in $options; do
                [[ " ${COMP_WORDS[*]:1:COMP_CWORD-1} " == *" $option "* ]] || left+=" $option"
            done
            mapfile -t COMPREPLY < <(compgen -W "$left" -- "$word")
            ;;
    esac
}
complete -F _arrivals arrivals
