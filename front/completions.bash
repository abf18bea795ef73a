# Completions of bash for mgr, mgr-live, mgr-channel and mgr-hub: options, and notes by the names of their files.
# `make install` puts them where bash looks for them. Without it, source this file.

# Folders and notes whose names begin so. A log stands for its note; what is kept beside one is left out.
_mgr_notes() {
    local begin=${1//\\/} path
    begin=${begin#[\"\']}
    while IFS= read -r path; do
        if [[ -d $path ]]; then
            COMPREPLY+=("$path")
        elif [[ $path != *@(~|.ops.new|.ops.refused|.ops.text) ]]; then
            COMPREPLY+=("${path%.ops}")
        fi
    done < <(compgen -f -- "$begin")
    compopt -o filenames
}

# Folders and files whose names begin so: each may be a log.
_mgr_files() {
    mapfile -t COMPREPLY < <(compgen -f -- "$1")
    compopt -o filenames
}

# An option that begins so, of those that follow, or a note.
_mgr_word() {
    local word=$1 before="${COMP_WORDS[*]:1:COMP_CWORD-1}"
    if [[ $word == -* && " $before " != *" -- "* ]]; then
        mapfile -t COMPREPLY < <(compgen -W "${*:2}" -- "$word")
    else
        _mgr_notes "$word"
    fi
}

_mgr() {
    local word=${COMP_WORDS[COMP_CWORD]} before=${COMP_WORDS[COMP_CWORD - 1]}
    COMPREPLY=()
    # Of a value nothing is known. bash takes = and : as words of their own.
    if [[ $before == @(--replica|--rows|--cols|--fill|--port|--with|--as|=|:) || $word == [=:] ]]; then
        return
    fi
    # `who --lines` takes no value.
    if [[ $before == --lines && ${COMP_WORDS[1]} == show ]]; then
        return
    fi
    case ${1##*/} in
        mgr-live)
            _mgr_word "$word" --replica --fill --with --as --no-colour --adopt --history --take-file --keep-file --trim --version --help
            ;;
        mgr-channel)
            _mgr_word "$word" --replica --with --as --adopt --take-file --keep-file --version --help
            ;;
        mgr-hub)
            _mgr_word "$word" --port --join --replica --version --help
            ;;
        *)
            if ((COMP_CWORD == 1)); then
                mapfile -t COMPREPLY < <(compgen -W "claims compact edit join log mend merge missing show who help --version --help" -- "$word")
            elif [[ ${COMP_WORDS[1]} == edit ]]; then
                _mgr_word "$word" --replica --rows --cols --fill --port --trace --live --changes --runs --brief --strict --help
            elif [[ ${COMP_WORDS[1]} == compact ]]; then
                _mgr_word "$word" --dels --help
            elif [[ ${COMP_WORDS[1]} == show ]]; then
                _mgr_word "$word" --lines --help
            elif [[ ${COMP_WORDS[1]} == log ]]; then
                _mgr_word "$word" --json --help
            elif [[ ${COMP_WORDS[1]} == who ]]; then
                _mgr_word "$word" --lines --help
            elif [[ ${COMP_WORDS[1]} == @(claims|mend|missing) ]]; then
                _mgr_word "$word" --help
            elif [[ ${COMP_WORDS[1]} == join ]]; then
                _mgr_files "$word"
            elif [[ ${COMP_WORDS[1]} == merge ]]; then
                # A note comes first, and logs follow.
                if [[ $COMP_CWORD -eq 2 || $word == -* || ($COMP_CWORD -eq 3 && $before == --adopt) ]]; then
                    _mgr_word "$word" --adopt --help
                else
                    _mgr_files "$word"
                fi
            fi
            ;;
    esac
}

complete -F _mgr mgr mgr-live mgr-channel mgr-hub
