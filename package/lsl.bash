# Completion of lsl in bash: commands, options, and files by their endings.

_lsl_take() {
    # Offers the lines of a text.
    COMPREPLY=()
    [[ -z $1 ]] || mapfile -t COMPREPLY <<<"$1"
}

_lsl_files() {
    # Offers for a word the folders, and the files with one of these endings, or all of them.
    local word=$1 ending
    shift
    _lsl_take "$(
        compgen -d -- "$word"
        for ending in "${@:-}"; do compgen -f -X "${ending:+!*.$ending}" -- "$word"; done
    )"
    compopt -o filenames 2>/dev/null
}

_lsl_words() {
    _lsl_take "$(compgen -W "$1" -- "$2")"
}

_lsl_options() {
    local steps='--touch --say --after --changed --rez --cross --message --run --on --link --channel --by
        --object --prim --note --region --owner'
    case $1 in
        once) echo --show --html --explain ;;
        check | freeze | thaw | view) echo --explain ;;
        replay) echo --lossy --show --html --explain ;;
        play) echo "$steps" --world --journal --html --freeze --interactive --help ;;
        debug) echo "$steps" -x --post --adapter --help ;;
    esac
}

_lsl() {
    local word=${COMP_WORDS[COMP_CWORD]} last=${COMP_WORDS[COMP_CWORD - 1]} command=${COMP_WORDS[1]}
    COMPREPLY=()
    if ((COMP_CWORD == 1)); then
        _lsl_words 'once check play replay freeze thaw view make debug server --help --version' "$word"
        return
    fi
    case $last in
        --html) _lsl_files "$word" html; return ;;
        --note | --freeze | -x) _lsl_files "$word"; return ;;
        --touch | --say | --after | --changed | --rez | --cross | --message | --run) return ;;
        --on | --link | --channel | --by | --object | --prim | --region | --owner) return ;;
    esac
    case $command:$word in
        *:-*) _lsl_words "$(_lsl_options "$command")" "$word" ;;
        once:* | check:*) _lsl_files "$word" lsl ;;
        play:* | debug:*) _lsl_files "$word" lsl world ;;
        replay:* | freeze:*) _lsl_files "$word" world ;;
        thaw:* | view:*) _lsl_files "$word" $( ((COMP_CWORD > 2)) && echo world) ;;
    esac
}

complete -F _lsl lsl
