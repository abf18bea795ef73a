#compdef mgr mgr-live mgr-channel mgr-hub
# Completions of zsh for mgr, mgr-live, mgr-channel and mgr-hub: options, and notes by the names of their files.

# Folders and notes. A log stands for its note; what is kept beside one is left out.
_mgr_notes() {
    local -a notes
    notes=(${PREFIX}*(N) ${(Q)PREFIX}*(N))
    notes=(${notes:#*(\~|.ops.new|.ops.refused|.ops.text)})
    notes=(${(u)notes%.ops})
    compadd -f -Q -- ${(q)notes}
}

_mgr() {
    local -a both=(
        '--replica=[the number of this copy]:number: '
        '(- *)--version[says its version]'
        '(- *)--help[says how it is called]'
        '1:note:_mgr_notes'
    )
    local -a writes=(
        '--with=[how to reach the others]:way: '
        '--as=[a name for others]:name: '
        '--adopt[join with another note\: both become one]'
        '(--keep-file)--take-file[bring the changes of the text into the log]'
        '(--take-file)--keep-file[go on with the log, and keep the text]'
    )
    case $service in
        mgr-live)
            _arguments $both $writes '--fill=[the fill column]:column: ' '--no-colour[show others without colours]' \
                '--trim[have the stream of Redis hold few lines]' '--history[show the texts that the note had]'
            ;;
        mgr-channel) _arguments $both $writes ;;
        mgr-hub)
            _arguments $both '--port=[a port of this machine]:port: ' \
                '--join[connect standard input to the hub of the note]'
            ;;
        *) _mgr_job ;;
    esac
}

# The first word of mgr is a job, and each job has options of its own.
_mgr_job() {
    local help='(- *)--help[says how it is called]' note='1:note:_mgr_notes' log='*:log:_files'
    if ((CURRENT == 2)); then
        compadd -- show edit compact join log who claims missing merge mend help --version --help
        return
    fi
    local job=$words[2]
    shift words
    ((CURRENT--))
    case $job in
        edit)
            _arguments $help $note '--replica=:number: ' '--rows=:rows: ' '--cols=:columns: ' '--fill=:column: ' \
                '--port=:port: ' --trace --live --changes --runs --brief --strict
            ;;
        show) _arguments $help $note '--lines=:number: ' ;;
        who) _arguments $help $note --lines ;;
        log) _arguments $help $note --json ;;
        compact) _arguments $help $note --dels ;;
        claims | missing | mend) _arguments $help $note ;;
        merge) _arguments $help $note $log --adopt ;;
        join) _arguments $help $log ;;
    esac
}

_mgr "$@"
