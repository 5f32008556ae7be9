# Completion of the words of rawgrid, rawlive and the rawgrid- tools for bash. Read it by `source`, or put it
# where bash-completion looks.

_rawgrid() {
    local word=${COMP_WORDS[COMP_CWORD]} last=${COMP_WORDS[COMP_CWORD - 1]} command=${COMP_WORDS[1]} offered=
    case $last in
    '<' | '>')
        compopt -o filenames
        mapfile -t COMPREPLY < <(compgen -f -- "$word")
        return
        ;;
    # (printed from docs/commands)
    --workers) offered="1 2 4 8 16 32 64" ;;
    --from | --cycles) ;;
    # (up to here)
    *)
        if [ "$COMP_CWORD" -eq 1 ]; then
            # (printed from docs/commands)
            offered="run picture history cycles path trace explore depths names lines check debug prove steady asm list plan flow work --help --version"
            # (up to here)
        else
            case $command in
            # (printed from docs/commands)
            run | picture | history) offered="--workers $(_rawgrid_forms)" ;;
            cycles) offered="$(_rawgrid_forms) --lost" ;;
            path | depths | names | steady) offered="$(_rawgrid_forms)" ;;
            trace | explore) offered="$(_rawgrid_forms) --from --cycles --whole" ;;
            debug | prove) offered="--live" ;;
            flow) offered="--schedule --endless" ;;
            work) [ "$COMP_CWORD" -eq 2 ] || offered="--workers" ;;
            # (up to here)
            esac
        fi
        ;;
    esac
    _rawgrid_offer "$word" "$offered"
}

_rawlive() {
    local word=${COMP_WORDS[COMP_CWORD]} last=${COMP_WORDS[COMP_CWORD - 1]} offered=
    if [ "$last" = --workers ]; then
        offered="1 2 4 8 16 32 64"
    elif [ "$COMP_CWORD" -eq 1 ]; then
        offered="--workers --help --version"
    fi
    _rawgrid_offer "$word" "$offered"
}

_rawgrid_heat() {
    local offered=
    [ "$COMP_CWORD" -ne 1 ] || offered="$(_rawgrid_forms) --help"
    _rawgrid_offer "${COMP_WORDS[COMP_CWORD]}" "$offered"
}

# Behind `--row` stands a set, behind `--plot` a column; else the first word is a folder.
_rawgrid_sweep() {
    local word=${COMP_WORDS[COMP_CWORD]}
    if [ "$COMP_CWORD" -eq 1 ]; then
        compopt -o filenames
        mapfile -t COMPREPLY < <(compgen -d -- "$word"; compgen -W "--row --plot --help" -- "$word")
    elif [ "$COMP_CWORD" -eq 2 ] && [ "${COMP_WORDS[1]}" = --row ]; then
        compopt -o filenames
        mapfile -t COMPREPLY < <(compgen -f -- "$word")
    elif [ "$COMP_CWORD" -eq 2 ] && [ "${COMP_WORDS[1]}" = --plot ]; then
        _rawgrid_offer "$word" "cycles steps misses"
    elif [ "${COMP_WORDS[COMP_CWORD - 1]}" = --claim ]; then
        compopt -o filenames
        mapfile -t COMPREPLY < <(compgen -f -- "$word")
    elif [ "${COMP_WORDS[1]}" != --plot ]; then
        _rawgrid_offer "$word" "--claim --jobs --sshlogin"
    fi
}

# A folder and a claim; behind `--row` a set and a claim, behind `--pages` a folder.
_rawgrid_grade() {
    local word=${COMP_WORDS[COMP_CWORD]} before=${COMP_WORDS[COMP_CWORD - 1]}
    if [ "$COMP_CWORD" -eq 1 ]; then
        compopt -o filenames
        mapfile -t COMPREPLY < <(compgen -d -- "$word"; compgen -W "--row --help" -- "$word")
    elif [ "$before" = --pages ]; then
        compopt -o filenames
        mapfile -t COMPREPLY < <(compgen -d -- "$word")
    elif [ "$COMP_CWORD" -eq 2 ] || { [ "$COMP_CWORD" -eq 3 ] && [ "${COMP_WORDS[1]}" = --row ]; }; then
        compopt -o filenames
        mapfile -t COMPREPLY < <(compgen -f -- "$word")
    else
        _rawgrid_offer "$word" "--pages --jobs --sshlogin"
    fi
}

# A file, which is all that `rawgrid-debug` takes.
_rawgrid_debug() {
    local word=${COMP_WORDS[COMP_CWORD]}
    [ "$COMP_CWORD" -eq 1 ] || return
    compopt -o filenames
    mapfile -t COMPREPLY < <(compgen -f -- "$word"; compgen -W "--help" -- "$word")
}

# Prints the options that say what a set is written as, of which at most one is taken.
_rawgrid_forms() {
    case " ${COMP_WORDS[*]:1:COMP_CWORD-1} " in
    # (printed from docs/commands)
    *" --image "* | *" --plan "* | *" --flow "*) ;;
    *) echo "--image --plan --flow" ;;
    # (up to here)
    esac
}

# Offers those of the words that begin as the one that is typed and do not stand on the line yet.
_rawgrid_offer() {
    local option rest=
    for option in $2; do
        case " ${COMP_WORDS[*]:1:COMP_CWORD-1} " in
        *" $option "*) ;;
        *) rest="$rest $option" ;;
        esac
    done
    mapfile -t COMPREPLY < <(compgen -W "$rest" -- "$1")
}

complete -F _rawgrid rawgrid
complete -F _rawlive rawlive
complete -F _rawgrid_heat rawgrid-heat
complete -F _rawgrid_sweep rawgrid-sweep
complete -F _rawgrid_grade rawgrid-grade
complete -F _rawgrid_debug rawgrid-debug
