# shellcheck shell=bash
# Completion in bash: of the commands, options and events of scramble, of the options of scramble-pages, of the command of
# scramble-wcif, and of the commands, options, files and folders of scramble-bundle. Numbers, seeds and names are not completed,
# and files behind < and > by bash itself.

# Of these words those that begin as what is typed.
_scramble_offer() { mapfile -t COMPREPLY < <(compgen -W "$1" -- "${COMP_WORDS[COMP_CWORD]}"); }

# Of these options those that were not given yet, where no value of one is due.
_scramble_options() {
    local option offered='' given=" ${COMP_WORDS[*]:0:COMP_CWORD} "
    case ${COMP_WORDS[COMP_CWORD - 1]} in --html) ;; = | --*) return ;; esac
    for option in $1; do
        case $given in *" $option "*) ;; *) offered="$offered $option" ;; esac
    done
    _scramble_offer "$offered"
}

_scramble() {
    local nets="222 333 333oh 555 666 777"
    COMPREPLY=()
    if [ "$COMP_CWORD" -eq 1 ]; then
        _scramble_offer "one sheet tables load net check"
        return
    fi
    case ${COMP_WORDS[1]} in
        sheet) _scramble_options "--seed --workers --tries --attempts --short" ;;
        check) _scramble_options "--seed --attempts" ;;
        one | tables) [ "$COMP_CWORD" -ne 2 ] || _scramble_offer "$nets clock minx pyram skewb sq1 333bf 333fm" ;;
        net) [ "$COMP_CWORD" -ne 2 ] || _scramble_offer "$nets" ;;
    esac
}

_scramble_pages() {
    COMPREPLY=()
    case ${COMP_WORDS[COMP_CWORD - 1]} in
        --pictures | --regulations) _scramble_offer "no yes" ;;
        *) _scramble_options "--html --name --group --pictures --regulations" ;;
    esac
}

_scramble_wcif() {
    COMPREPLY=()
    [ "$COMP_CWORD" -ne 1 ] || _scramble_offer "list fill"
}

_scramble_bundle() {
    local options="--list --wcif" word=${COMP_WORDS[COMP_CWORD]} before=${COMP_WORDS[COMP_CWORD - 1]}
    COMPREPLY=()
    case $before in --name) return ;; esac
    case ${COMP_WORDS[1]} in add) ;; verify) options= ;; *) options="--name $options --seed-file" ;; esac
    if [[ $before != --* && $word == -* ]]; then
        _scramble_options "$options"
        return
    fi
    compopt -o filenames
    if [[ $before == --* ]]; then mapfile -t COMPREPLY < <(compgen -f -- "$word"); return; fi
    mapfile -t COMPREPLY < <(compgen -d -- "$word"; [ "$COMP_CWORD" -ne 1 ] || compgen -W "add verify" -- "$word")
}

complete -F _scramble scramble
complete -F _scramble_bundle scramble-bundle
complete -F _scramble_pages scramble-pages
complete -F _scramble_wcif scramble-wcif
