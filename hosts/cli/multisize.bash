# Completions of multisize for bash: its commands, their options, and the files that each takes.

_multisize() {
    local word=${COMP_WORDS[COMP_CWORD]} before=${COMP_WORDS[COMP_CWORD - 1]} options endings
    local commands="carve build check info show seams table page remove retarget"
    COMPREPLY=()
    if [ "$COMP_CWORD" -eq 1 ]; then
        mapfile -t COMPREPLY < <(compgen -W "$commands help --help --version" -- "$word")
        return
    fi
    case ${COMP_WORDS[1]} in
    carve) options="-o --energy" endings="@(png|pgm|ppm|pnm)" ;;
    build) options="-o --depth --growth --energy" endings="@(png|pgm|ppm|pnm)" ;;
    check) options="" endings="multi" ;;
    info) options="--json" endings="multi" ;;
    show) options="-o" endings="multi" ;;
    seams) options="-o --first" endings="multi" ;;
    table) options="-o --long" endings="multi" ;;
    page) options="-o --title" endings="multi" ;;
    remove) options="-o --take --keep --budget --energy" endings="@(png|pgm|ppm|pnm)" ;;
    retarget) options="-o --rows --columns --energy" endings="@(png|pgm|ppm|pnm)" ;;
    help)
        mapfile -t COMPREPLY < <(compgen -W "$commands" -- "$word")
        return
        ;;
    *) return ;;
    esac
    case $before in
    --depth | --growth | --first | --budget | --rows | --columns | --title) return ;;
    --energy)
        mapfile -t COMPREPLY < <(compgen -W "edge flat forward" -- "$word")
        return
        ;;
    -o) mapfile -t COMPREPLY < <(compgen -f -- "$word") ;; # what is written may have any name
    *)
        if [[ $word == -* ]]; then
            mapfile -t COMPREPLY < <(compgen -W "$options" -- "$word")
            return
        fi
        mapfile -t COMPREPLY < <(shopt -s extglob; compgen -f -X "!*.$endings" -- "$word"; compgen -d -- "$word")
        ;;
    esac
    # Names with blanks are quoted, and folders end in a slash.
    compopt -o filenames 2>/dev/null
}

complete -F _multisize multisize
