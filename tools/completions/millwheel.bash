# Completes the words of millwheel in bash: . tools/completions/millwheel.bash

# The options of a mode; of none yet, those of any.
_millwheel_options() {
    case "$1" in
    solo) echo "--history --live --keep" ;;
    replay) echo "--plan --history --live --keep" ;;
    run) echo "--workers --rounds --plan --history" ;;
    audit) echo "--trace" ;;
    plain | collect | load) ;;
    *) echo "--history --live --keep --plan --workers --rounds --trace" ;;
    esac
}

# Reads the words before the one that is completed: which is the mode, which options stand there, whether `--` does,
# and which option waits for its value. Bash parts `--plan=FILE` at the `=`.
_millwheel_words() {
    local at part
    mode='' given='' waits='' ended=''
    for ((at = 1; at < COMP_CWORD; at++)); do
        part="${COMP_WORDS[at]}"
        if [ -n "$waits" ]; then
            [ "$part" = = ] || waits=''
        elif [ -n "$ended" ] || [[ "$part" != -* ]]; then
            [ -n "$mode" ] || mode="$part"
        else
            given="$given $part "
            case "$part" in
            --) ended=1 ;;
            --keep | --plan | --trace | --workers | --rounds) waits="$part" ;;
            esac
        fi
    done
}

_millwheel() {
    local mode given waits ended part found=() word="${COMP_WORDS[COMP_CWORD]}"
    _millwheel_words
    [ "$word" = = ] && word=''
    COMPREPLY=()
    if [ "$waits" = --workers ]; then
        COMPREPLY=($(compgen -W "$(echo {1..16})" -- "$word"))
    elif [ "$waits" = --rounds ]; then
        return
    elif [ -n "$waits" ]; then
        mapfile -t COMPREPLY < <(compgen -f -- "$word")
    elif [ -z "$ended" ] && [[ "$word" = -* ]]; then
        # An option stands once, and one of the two flags.
        for part in $(_millwheel_options "$mode"); do
            case "$given" in *" $part "*) continue ;; esac
            case "$part$given" in --live*" --history "* | --history*" --live "*) continue ;; esac
            found+=("$part")
        done
        COMPREPLY=($(compgen -W "${found[*]}" -- "$word"))
    elif [ -z "$mode" ]; then
        COMPREPLY=($(compgen -W "solo replay run plain audit collect load" -- "$word"))
    elif [ "$mode" != load ]; then
        mapfile -t COMPREPLY < <(compgen -f -- "$word")
    fi
}

complete -o filenames -F _millwheel millwheel
