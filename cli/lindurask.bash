# Completion for bash: commands, options, the last words of open and quote, and files where a book, a plan or a list stands.
_lindurask() {
    local word=${COMP_WORDS[COMP_CWORD]} before=${COMP_WORDS[COMP_CWORD - 1]} command=${COMP_WORDS[1]-} choices=
    COMPREPLY=()
    local commands='new check show open close post buy quote routes table balance accounts diff statement replan adopt salvage page help'
    if [ "$COMP_CWORD" = 1 ]; then
        mapfile -t COMPREPLY < <(compgen -W "$commands --help --version" -- "$word")
        return
    fi
    if [ "$command:$COMP_CWORD" = open:6 ]; then
        mapfile -t COMPREPLY < <(compgen -W '1 2 5 10 20 50 100 200 500 1000 --mains --help' -- "$word")
        return
    fi
    case $command:$COMP_CWORD:$before in
    open:*:account | quote:*:account) return ;;
    open:7:*) choices='second account --mains --help' ;;
    open:8:second | quote:5:*) choices='account --mains --help' ;;
    open:9:*) choices='second --mains --help' ;;
    esac
    if [ -n "$choices" ]; then
        [ "$command" != quote ] || choices="${choices% *} --json --help"
        mapfile -t COMPREPLY < <(compgen -W "$choices" -- "$word")
        return
    fi
    case $command in
    balance | accounts | diff) choices='--json --help' ;;
    check | quote | routes) choices='--mains --json --help' ;;
    open) choices='--mains --help' ;;
    statement) choices='--raw --help' ;;
    table | salvage) choices='--raw --json --help' ;;
    post) choices='--dry-run --mains --json --help' ;;
    show) choices='--stream --node --no-lists --json --help' ;;
    *) choices=--help ;;
    esac
    case $command:$before:$word in
    help:*) mapfile -t COMPREPLY < <(compgen -W "$commands" -- "$word") ;;
    *:--stream:* | *:--node:* | *:--mains:*) ;;
    *:*:-*) mapfile -t COMPREPLY < <(compgen -W "$choices" -- "$word") ;;
    *) compopt -o filenames 2>/dev/null; mapfile -t COMPREPLY < <(compgen -f -- "$word") ;;
    esac
}
complete -F _lindurask lindurask
