# Completions of tom for bash: commands, options and their values, names of files.
_tom() {
    local word=$2 before=$3 command=${COMP_WORDS[1]-} words=
    COMPREPLY=()
    # bash cuts --form=json into three words.
    [ "$before" = '=' ] && before=${COMP_WORDS[COMP_CWORD - 2]}
    [ "$word" = '=' ] && word= && before=${COMP_WORDS[COMP_CWORD - 1]}
    if [ "$COMP_CWORD" -eq 1 ]; then
        words='watch streams rewrite contain audit explain verify drill'
    elif [ "$command" = watch ] && [ "$before" = --form ]; then
        words='text json'
    elif [ "$command" = watch ] && [ "$before" = --report ]; then
        words='text json csv'
    elif [ "$command" = watch ] && [[ $word == -* ]]; then
        words='--owl --form --report --sizes'
    elif [ "$command" != drill ] && [[ $word == -* ]]; then
        words=--owl
    elif [ "$command" != drill ]; then
        mapfile -t COMPREPLY < <(compgen -f -- "$word")
        return
    fi
    mapfile -t COMPREPLY < <(compgen -W "$words" -- "$word")
}
complete -o filenames -F _tom tom
