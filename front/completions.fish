# Completions of fish for mgr, mgr-live, mgr-channel and mgr-hub: options, and notes by the names of their files.

# Folders and notes whose names begin as the last word does. A log stands for its note; what is kept beside one is left out.
function __mgr_notes
    for path in (__fish_complete_path (commandline -ct) | string replace -r '\t.*' '')
        if not string match -qr '(~|\.ops\.new|\.ops\.refused|\.ops\.text)$' -- $path
            string replace -r '\.ops$' '' -- $path
        end
    end | sort -u
end

# The options of a program: `-x` is of those that take a value.
function __mgr_options -a program
    complete -c $program -f -a '(__mgr_notes)'
    complete -c $program -l help -d 'says how it is called'
    complete -c $program -l version -d 'says its version'
    complete -c $program -l replica -x -d 'the number of this copy'
end

for program in mgr-live mgr-channel
    __mgr_options $program
    complete -c $program -l with -x -d 'how to reach the others'
    complete -c $program -l as -x -d 'a name for others'
    complete -c $program -l adopt -d 'join with another note: both become one'
    complete -c $program -l take-file -d 'bring the changes of the text into the log'
    complete -c $program -l keep-file -d 'go on with the log, and keep the text'
end
complete -c mgr-live -l fill -x -d 'the fill column'
complete -c mgr-live -l no-colour -d 'show others without colours'
complete -c mgr-live -l trim -d 'have the stream of Redis hold few lines'
complete -c mgr-live -l history -d 'show the texts that the note had'

__mgr_options mgr-hub
complete -c mgr-hub -l port -x -d 'a port of this machine'
complete -c mgr-hub -l join -d 'connect standard input to the hub of the note'

set -l jobs show edit compact join log who claims missing merge mend
complete -c mgr -f
complete -c mgr -n "not __fish_seen_subcommand_from $jobs" -a "$jobs help"
complete -c mgr -n "not __fish_seen_subcommand_from $jobs" -l version -d 'says its version'
complete -c mgr -l help -d 'says how it is called'
complete -c mgr -n '__fish_seen_subcommand_from join' -F
complete -c mgr -n '__fish_seen_subcommand_from merge' -F
complete -c mgr -n "__fish_seen_subcommand_from show edit compact log who claims missing mend" -a '(__mgr_notes)'
for option in replica rows cols fill port
    complete -c mgr -n '__fish_seen_subcommand_from edit' -l $option -x
end
for option in trace live changes runs brief strict
    complete -c mgr -n '__fish_seen_subcommand_from edit' -l $option
end
complete -c mgr -n '__fish_seen_subcommand_from compact' -l dels
complete -c mgr -n '__fish_seen_subcommand_from show' -l lines -x
complete -c mgr -n '__fish_seen_subcommand_from log' -l json
complete -c mgr -n '__fish_seen_subcommand_from who' -l lines
complete -c mgr -n '__fish_seen_subcommand_from merge' -l adopt
functions -e __mgr_options
