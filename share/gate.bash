# Completes the words of gate in bash, and files where it has no word.
_gate() {
    local word=${COMP_WORDS[COMP_CWORD]} words=
    # bash takes `:` and `=` for words of their own.
    case ${COMP_WORDS[1]}.$COMP_CWORD.${COMP_WORDS[COMP_CWORD - 1]} in
    *.1.*)
        words='check replay serve explain help --help --version'
        ;;
    serve.*.=)
        compopt -o nospace
        words='file: unix: tcp:'
        ;;
    *.*.:)
        ;;
    explain.[23].*)
        [[ $word != -* ]] || words='--dot --settings'
        ;;
    serve.3.*)
        compopt -o nospace
        words='none unix: tcp:'
        ;;
    serve.[4-9].* | serve.[1-9][0-9].*)
        compopt -o nospace
        words=$("${COMP_WORDS[0]}" check "${COMP_WORDS[2]}" 2>/dev/null | sed -nE 's/^connection [0-9]+ "([^"\\ ]*)"$/\1=/p')
        ;;
    esac
    mapfile -t COMPREPLY < <(compgen -W "$words" -- "$word")
}
complete -o bashdefault -o default -F _gate gate
