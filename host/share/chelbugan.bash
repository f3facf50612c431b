# bash completion for chelbugan, made by `chelbugan help bash`.
_chelbugan() {
    local word=${COMP_WORDS[COMP_CWORD]} before=${COMP_WORDS[COMP_CWORD - 1]} command= place=0 options= words= at
    for ((at = 1; at < COMP_CWORD; at++)); do
        case ${COMP_WORDS[at]} in
        --library | -o | --output) ((at++)) ;;
        -?*) ;;
        *) if [ -z "$command" ]; then command=${COMP_WORDS[at]}; else ((place++)); fi ;;
        esac
    done
    COMPREPLY=()
    case $before in --library | -o | --output) return ;; esac
    case $command in
    '') options='--json -h --help -V --version' words='check run type explain dump print assemble lines help' ;;
    check) options='--library -q --quiet --json -h --help -V --version' words='' ;;
    run) options='--library --fail-on-trap --trace -q --quiet --json -h --help -V --version' words='' ;;
    type) options='--library -o --output -q --quiet --json -h --help -V --version' words='' ;;
    explain) options='--page --json -h --help -V --version' words='accepted 1 2 3 4 5 6 7 8 9 10 11 12 13 14 20 21 22 23 24 25 27 28 29 31 32 41 42 43 44 45 46' ;;
    dump) options='--library -o --output -q --quiet --json -h --help -V --version' words='section body' ;;
    print) options='--library -o --output --json -h --help -V --version' words='section body' ;;
    assemble) options='--library -o --output --raw --json -h --help -V --version' words='section body' ;;
    lines) options='--library --comments --json -h --help -V --version' words='' ;;
    help) options='--json -h --help -V --version' words='check run type explain dump print assemble lines help man bash zsh fish' ;;
    esac
    case $word in
    -*) words=$options ;;
    *) [ "$place" -eq 0 ] || words= ;;
    esac
    mapfile -t COMPREPLY < <(compgen -W "$words" -- "$word")
}
# Where nothing is offered, the names of files are.
complete -o bashdefault -o default -F _chelbugan chelbugan
