# Completion of shards for bash: options that were not given yet, files, and the words of --side and --strict.
_shards() {
    local options="--side --left --right --left-types --right-types --join --delimiter --left-delimiter --right-delimiter --null --left-null
        --right-null --strict --explain --parts --from --to --out --cuts --help --version"
    local word=${COMP_WORDS[COMP_CWORD]} before=${COMP_WORDS[COMP_CWORD - 1]}
    # `--left=a` is three words here: --left, = and a.
    if [[ $word == = ]]; then
        word=
    elif [[ $before == = ]]; then
        before=${COMP_WORDS[COMP_CWORD - 2]}
    fi
    # `--strict` may stand without a word of its own.
    if [[ $before == --strict && $word == -* ]]; then
        before=
    fi
    COMPREPLY=()
    case $before in
        --left | --right)
            compopt -o filenames 2>/dev/null
            mapfile -t COMPREPLY < <(compgen -f -- "$word")
            ;;
        --out)
            compopt -o filenames 2>/dev/null
            mapfile -t COMPREPLY < <(compgen -d -- "$word")
            ;;
        --side)
            mapfile -t COMPREPLY < <(compgen -W "left right" -- "$word")
            ;;
        --delimiter | -d | --left-delimiter | --right-delimiter)
            mapfile -t COMPREPLY < <(compgen -W "tab" -- "$word")
            ;;
        --strict)
            mapfile -t COMPREPLY < <(compgen -W "on full" -- "$word")
            ;;
        --left-types | --right-types | --join | --null | --left-null | --right-null | --parts | --from | --to | --cuts) ;;
        *)
            local option left=
            for option in $options; do
                # The null texts of a side may be given again.
                [[ $option != --left-null && $option != --right-null && " ${COMP_WORDS[*]:1:COMP_CWORD-1} " == *" $option "* ]] || left+=" $option"
            done
            mapfile -t COMPREPLY < <(compgen -W "$left" -- "$word")
            ;;
    esac
}
complete -F _shards shards
