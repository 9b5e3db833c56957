# Completion of lundocsef-x for bash: lundocsef-x --completion bash > ~/.local/share/bash-completion/completions/lundocsef-x

_lundocsef_x() {
    local word=${COMP_WORDS[COMP_CWORD]} before=${COMP_WORDS[COMP_CWORD-1]} command= each
    for each in "${COMP_WORDS[@]:1:COMP_CWORD-1}"; do
        case $each in
            run|check|replay|report|demo|flex|forecast|improve) [[ -z $command ]] && command=$each ;;
        esac
    done
    COMPREPLY=()
    case $before in
        --program) COMPREPLY=($(compgen -f -- "$word")); return ;;
        --completion) COMPREPLY=($(compgen -W 'bash zsh' -- "$word")); return ;;
        --turns) COMPREPLY=($(compgen -W '2 4 8 16' -- "$word")); return ;;
        --planners) COMPREPLY=($(compgen -W '2 3 4 8' -- "$word")); return ;;
        --seed) return ;;
    esac
    if [[ $word == -* ]]; then
        if [[ -z $command ]]; then COMPREPLY=($(compgen -W '--help --version --completion --program' -- "$word"))
        elif [[ $command == run ]]; then COMPREPLY=($(compgen -W '--help --turns --seed --planners' -- "$word"))
        else COMPREPLY=($(compgen -W '--help' -- "$word")); fi
    elif [[ -z $command ]]; then
        COMPREPLY=($(compgen -W 'run check replay report demo flex forecast improve' -- "$word"))
    elif [[ $command != demo ]]; then
        compopt -o filenames 2> /dev/null
        COMPREPLY=($(compgen -f -- "$word"))
    fi
}
complete -F _lundocsef_x lundocsef-x
