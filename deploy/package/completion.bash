# Completes the words of auction in bash. The package puts it into /usr/share/bash-completion/completions/auction.

_auction_options() {
    case $1 in
        init) echo --bands --rate --zone ;;
        serve) echo --port --count ;;
        import) echo --member --moment ;;
        statement) echo --member --from --to --csv ;;
        bands) echo --moment ;;
        replay) echo --preset --record --bands --rate --zone ;;
        audit) echo --member --house --bands --rate --zone ;;
        surplus) echo --place --maximum --member --house --bands --rate --zone ;;
        upgrade | help) ;;
        *) echo --version ;;
    esac
}

_auction() {
    local commands="init serve replay import statement bands upgrade audit surplus help"
    local word=${COMP_WORDS[COMP_CWORD]} before=${COMP_WORDS[COMP_CWORD - 1]} command=${COMP_WORDS[1]}
    if [ "$COMP_CWORD" = 1 ] || [ "$command" = help ]; then
        mapfile -t COMPREPLY < <(compgen -W "$commands $(_auction_options) --help" -- "$word")
    elif [[ $word == -* ]]; then
        mapfile -t COMPREPLY < <(compgen -W "$(_auction_options "$command") --help" -- "$word")
    elif [[ $before == --* && $before != --bands && $before != --house && $before != --csv && $before != --preset \
        && $before != --record ]]; then
        COMPREPLY=()
    else
        compopt -o filenames
        mapfile -t COMPREPLY < <(compgen -f -- "$word")
    fi
}

complete -F _auction auction
