# Completion of radixjoin for bash: options that were not given yet, files, and the words of options.
_radixjoin() {
    local options="--left --right --left-types --right-types --types --join --delimiter --left-delimiter --right-delimiter --out-delimiter --null --left-null --right-null --out-null --unnamed --strict --stats --order --rows --columns --select --anti --semi --repeated --expect --max-rows --count --report --progress --output --explain --lenient --terse --quiet --workers
        --bits1 --bits2 --hash --piece --block --capacity --lanes --retries --help --version"
    local word=${COMP_WORDS[COMP_CWORD]} before=${COMP_WORDS[COMP_CWORD - 1]} equals=
    # `--left=a` is three words here: --left, = and a.
    if [[ $word == = ]]; then
        word= equals=yes
    elif [[ $before == = ]]; then
        before=${COMP_WORDS[COMP_CWORD - 2]} equals=yes
    fi
    # `--strict` may stand without a word of its own.
    if [[ $before == --strict && $word == -* ]]; then
        before=
    fi
    # `--explain` has its word behind = alone.
    if [[ $before == --explain && -z $equals ]]; then
        before=
    fi
    # Few options go with `--suggest-types`, so it is proposed as the first word alone.
    if ((COMP_CWORD == 1)); then
        options+=" --suggest-types"
    elif [[ " ${COMP_WORDS[*]:1:COMP_CWORD-1} " == *" --suggest-types"[\ =]* ]]; then
        options="--null --delimiter --strict --keys-only --explain --help"
    fi
    COMPREPLY=()
    case $before in
        --left | --right | --output | -o | --suggest-types)
            compopt -o filenames 2>/dev/null
            mapfile -t COMPREPLY < <(compgen -f -- "$word")
            ;;
        --order)
            mapfile -t COMPREPLY < <(compgen -W "pairs left" -- "$word")
            ;;
        --rows)
            mapfile -t COMPREPLY < <(compgen -W "pairs lone-left lone-right matched-left" -- "$word")
            ;;
        --columns)
            mapfile -t COMPREPLY < <(compgen -W "all left right" -- "$word")
            ;;
        --repeated)
            mapfile -t COMPREPLY < <(compgen -W "keep qualify" -- "$word")
            ;;
        --expect)
            mapfile -t COMPREPLY < <(compgen -W "one-to-one many-to-one one-to-many matched one-to-one,matched many-to-one,matched one-to-many,matched" -- "$word")
            ;;
        --hash)
            mapfile -t COMPREPLY < <(compgen -W "plain mixed" -- "$word")
            ;;
        --explain)
            mapfile -t COMPREPLY < <(compgen -W "all" -- "$word")
            ;;
        --strict)
            mapfile -t COMPREPLY < <(compgen -W "on full" -- "$word")
            ;;
        --delimiter | -d | --left-delimiter | --right-delimiter | --out-delimiter)
            mapfile -t COMPREPLY < <(compgen -W "tab" -- "$word")
            ;;
        --left-types | --right-types | --types)
            if [[ $word == @* ]]; then
                compopt -o filenames 2>/dev/null
                mapfile -t COMPREPLY < <(compgen -P @ -f -- "${word#@}")
            elif [[ $before == --types ]]; then
                mapfile -t COMPREPLY < <(compgen -W "auto" -- "$word")
            fi
            ;;
        --join | --null | --left-null | --right-null | --out-null | --workers | -w | --bits1 | --bits2 | --piece | --block | --capacity | --lanes | --retries | --max-rows | --select) ;;
        *)
            local option left=
            for option in $options; do
                # The null texts of a side may be given again.
                [[ $option != --left-null && $option != --right-null && " ${COMP_WORDS[*]:1:COMP_CWORD-1} " == *" $option "* ]] || left+=" $option"
            done
            # In the short form files are words by themselves.
            if [[ $word != -* ]]; then
                compopt -o filenames 2>/dev/null
                mapfile -t COMPREPLY < <(compgen -f -- "$word")
            else
                mapfile -t COMPREPLY < <(compgen -W "$left" -- "$word")
            fi
            ;;
    esac
}
complete -F _radixjoin radixjoin
