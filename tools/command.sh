# How a tool written in bash takes its words: as tools/command.py has it, by the usage in the comment that the tool begins with. It sources this file
# with its words. There are no options but --help.

take_words() {
    local told tool takes word least=0 wanted
    told=$(sed -n '2,/^[^#]/ s/^# \{0,1\}//p' "$0")
    read -r tool takes < <(sed -n 's/^    \(tools\/\)/\1/p' <<< "$told")
    for word in "$@"; do
        case $word in
        -h | --help)
            printf '%s\n' "$told"
            exit
            ;;
        -*) refuse_words "there is no option $(printf %q "$word")" ;;
        esac
    done
    read -ra wanted <<< "$takes"
    for word in "${wanted[@]}"; do
        [[ $word == \[* ]] || least=$((least + 1))
    done
    [ $# -ge "$least" ] || refuse_words "too few words: it takes $takes"
    [ $# -le "${#wanted[@]}" ] || refuse_words "too many words: it takes ${takes:-none}"
}

refuse_words() {
    echo "${tool##*/}: $1; see $tool --help" >&2
    exit 2
}

take_words "$@"
