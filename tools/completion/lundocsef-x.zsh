#compdef lundocsef-x
# Completion of lundocsef-x for zsh: lundocsef-x --completion zsh > a folder of $fpath/_lundocsef-x

_lundocsef_x() {
    local curcontext=$curcontext state line
    local -A opt_args
    _arguments -C \
        '--help[show the help]' \
        '--version[say which program is called]' \
        '--completion[write the completion for this shell]:shell:(bash zsh)' \
        '--program[the planner]:program:_files' \
        '1:command:((run\:"plan, and write the journal" check\:"say whether a text is a model" replay\:"say whether a journal is legal" report\:"write the plan behind a journal" demo\:"plan N built-in goals" flex\:"say how far activities can move" forecast\:"say where levels leave their limits" improve\:"say how steps better the plan"))' \
        '*::argument:->arguments'
    [[ $state == arguments ]] || return
    case $line[1] in
        run) _arguments '--turns[the most repairs for a message]:N:(2 4 8 16)' '--seed[plan with two threads]:seed:' '--planners[plan with several planners]:P:(2 3 4 8)' '1:model:_files' '2:messages:_files' ;;
        check) _arguments '1:model:_files' ;;
        replay|report) _arguments '1:model:_files' '2:journal:_files' ;;
        demo) _arguments '1:N:' ;;
        flex) _arguments '1:id:' '2:model:_files' '3:journal:_files' ;;
        forecast) _arguments '1:rates:_files' '2:model:_files' '3:journal:_files' ;;
        improve) _arguments '1:N:' '2:preferences:_files' '3:model:_files' '4:journal:_files' ;;
    esac
}
_lundocsef_x "$@"
