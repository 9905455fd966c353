# Completion in bash for sievebench and sievebench-site. All words come from the help of what is completed, so they are those that it knows, or
# from the site that stands in the line: its users, main scripts and mails.

# The site: the last folder in the line, or the folder site of this one, or this one.
_sievebench_site() {
    local word found=""
    for word in "${COMP_WORDS[@]:2:COMP_CWORD-2}" "${COMP_WORDS[@]:COMP_CWORD+1}"; do
        [ ! -d "$word" ] || found=$word
    done
    [ -n "$found" ] || { [ -d site ] && found=site || found=.; }
    printf '%s\n' "$found"
}

# Those of a site's users, main scripts or mails that begin so.
_sievebench_names() {
    local name
    COMPREPLY=()
    while IFS= read -r name; do
        [[ $name != "$3"* ]] || COMPREPLY+=("$name")
    done < <("$1" --complete "$2" "$(_sievebench_site)" 2> /dev/null)
}

_sievebench() {
    local program=${COMP_WORDS[0]} command=${COMP_WORDS[1]} current=$2 before=$3 first="" words
    COMPREPLY=()
    if [ "$COMP_CWORD" -eq 1 ]; then
        # The commands: the first lines that begin with two blanks and a word.
        words=$("$program" --help 2> /dev/null | awk '/^  [a-z]+ / { print $1; found = 1; next } found { exit }')
        mapfile -t COMPREPLY < <(compgen -W "$words --help --version" -- "$current")
        return
    fi
    case $before in
    --with)
        # Names, of which several are joined by commas.
        words=$("$program" help "$command" 2> /dev/null | awk '/^      --with / { found = 1; next } found && /^ +[a-z]/ { print $1; next } found { exit }')
        [[ $current != *,* ]] || first=${current%,*},
        mapfile -t COMPREPLY < <(compgen -P "$first" -W "$words" -- "${current##*,}")
        return
        ;;
    --format)
        words=$("$program" "$command" --help 2> /dev/null | sed -n 's/^  --format {\(.*\)}/\1/p')
        mapfile -t COMPREPLY < <(compgen -W "${words//,/ }" -- "$current")
        return
        ;;
    --user | --main | --only)
        words=${before#--}s
        _sievebench_names "$program" "${words/onlys/mails}" "$current"
        return
        ;;
    --personal | --global)
        mapfile -t COMPREPLY < <(compgen -d -- "$current")
        return
        ;;
    esac
    case $current in
    -*)
        # An option stands at the begin of a line, after a few blanks: what is told of others is further to the right.
        words=$("$program" "$command" --help 2> /dev/null | sed -nE 's/^ {2,6}(-[A-Za-z], )?(--?[A-Za-z][a-z0-9-]*).*/\1 \2/p')
        mapfile -t COMPREPLY < <(compgen -W "${words//,/ }" -- "$current")
        ;;
    *)
        # After the site `why` takes a mail.
        if [ "$command" = why ] && [ "$(_sievebench_site)" = "$before" ]; then
            _sievebench_names "$program" mails "$current"
        else
            mapfile -t COMPREPLY < <(compgen -f -- "$current")
        fi
        ;;
    esac
}
complete -o filenames -F _sievebench sievebench sievebench-site
