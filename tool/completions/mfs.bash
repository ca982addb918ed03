# Completion of the tool mfs for bash: commands, their options, and files of the host.
_mfs() {
    local commands='ls tree info df room cat get put append mkdir rm format check dump map help'
    local word=${COMP_WORDS[COMP_CWORD]} before=${COMP_WORDS[COMP_CWORD - 1]} command='' i
    case $before in
    -k) mapfile -t COMPREPLY < <(compgen -W 'auto 0 1 8 8192' -- "$word") && return ;;
    --code) mapfile -t COMPREPLY < <(compgen -W '0 1 auto' -- "$word") && return ;;
    --at | --time | --blocks) return ;;
    --svg) mapfile -t COMPREPLY < <(compgen -f -- "$word") && return ;;
    esac
    for ((i = 1; i < COMP_CWORD; i++)); do
        case ${COMP_WORDS[i]} in
        -k | --code) i=$((i + 1)) ;;
        -*) ;;
        *) command=${COMP_WORDS[i]} && break ;;
        esac
    done
    if [[ $word == -* ]]; then
        local options='-k --code --json --quiet --no-progress --help'
        case $command in
        '') options+=' --version' ;;
        ls) options+=' -l -R' ;;
        get) options+=' -r' ;;
        put) options+=' -r --at --time --dry-run' ;;
        rm) options+=' -r --time --dry-run' ;;
        append) options+=' --time --dry-run' ;;
        mkdir) options+=' -p --time --dry-run' ;;
        format) options+=' --blocks --force --dry-run' ;;
        check) options+=' --explain' ;;
        map) options+=' --svg' ;;
        esac
        mapfile -t COMPREPLY < <(compgen -W "$options" -- "$word")
    elif [[ -z $command || $command == help ]]; then
        mapfile -t COMPREPLY < <(compgen -W "$commands" -- "$word")
    elif [[ $command == dump && $before != dump ]]; then
        mapfile -t COMPREPLY < <(compgen -W 'superblock bitmap block' -- "$word")
    else
        compopt -o filenames 2>/dev/null
        mapfile -t COMPREPLY < <(compgen -f -- "$word")
    fi
}
complete -F _mfs mfs
