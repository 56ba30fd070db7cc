# fish completion for tally(1)

# The names of zones: those of the files below /usr/share/zoneinfo, and local.
function __tally_zones
    echo local
    if test -d /usr/share/zoneinfo
        find -L /usr/share/zoneinfo \( -name posix -o -name right \) -prune -o -type f -name '[A-Z]*' -printf '%P\n'
    end
end

# Whether the report is one of those that are named.
function __tally_report_is
    set -l words (commandline -opc)
    test (count $words) -gt 1; and contains -- $words[2] $argv
end

# A file of records after the letter of its kind.
function __tally_records
    set -l word (string unescape -- (commandline -ct))
    if string match -qr '^[wp]:' -- $word
        set -l kind (string sub -l 2 -- $word)
        for path in (__fish_complete_path (string sub -s 3 -- $word))
            echo $kind$path
        end
    else
        printf '%s\t%s\n' w: 'A file of login records' p: 'A file of process records'
    end
end

complete -c tally -n __fish_use_subcommand -f -a last -d 'List login sessions and running times'
complete -c tally -n __fish_use_subcommand -f -a lastb -d 'List failed logins'
complete -c tally -n __fish_use_subcommand -f -a ac -d 'Sum connect time'
complete -c tally -n __fish_use_subcommand -f -a sa -d 'Sum the usage of commands or users'
complete -c tally -n __fish_use_subcommand -f -a all -d 'Print all reports'
complete -c tally -n __fish_use_subcommand -f -a check -d 'Check files before a report is believed'
complete -c tally -n __fish_use_subcommand -f -a help -d 'Print help'
complete -c tally -n __fish_use_subcommand -s h -l help -d 'Print help'
complete -c tally -n __fish_use_subcommand -s V -l version -d 'Print version'

complete -c tally -n '__tally_report_is last' -s n -x -d 'Show the latest N stays of each file'
complete -c tally -n '__tally_report_is last' -l user -x -a '(__fish_complete_users)' -d 'Show sessions of this user'
complete -c tally -n '__tally_report_is last' -l line -x -d 'Show sessions on this line'
complete -c tally -n '__tally_report_is last' -s s -l from -x -a now -d 'Show what has a part from this moment on'
complete -c tally -n '__tally_report_is last' -s t -l to -x -a now -d 'Show what has a part before this moment'
complete -c tally -n '__tally_report_is last' -l in -x -d 'Show what has a part in this year, month or day'
complete -c tally -n '__tally_report_is last' -s p -l at -x -a now -d 'Show who was logged in at this moment'

complete -c tally -n '__tally_report_is lastb' -s n -x -d 'Show the latest N attempts of each file, or the first N sums'
complete -c tally -n '__tally_report_is lastb' -l sum -d 'Count attempts by user and remote host'
complete -c tally -n '__tally_report_is lastb' -l user -x -a '(__fish_complete_users)' -d 'Show attempts of this user'
complete -c tally -n '__tally_report_is lastb' -l line -x -d 'Show attempts on this line'
complete -c tally -n '__tally_report_is lastb' -s s -l from -x -a now -d 'Show attempts from this moment on'
complete -c tally -n '__tally_report_is lastb' -s t -l to -x -a now -d 'Show attempts before this moment'
complete -c tally -n '__tally_report_is lastb' -l in -x -d 'Show attempts in this year, month or day'

complete -c tally -n '__tally_report_is ac' -s d -d 'Sum by day'
complete -c tally -n '__tally_report_is ac' -s p -d 'Sum by user'
complete -c tally -n '__tally_report_is ac' -l user -x -a '(__fish_complete_users)' -d 'Sum sessions of this user'
complete -c tally -n '__tally_report_is ac' -l line -x -d 'Sum sessions on this line'
complete -c tally -n '__tally_report_is ac' -l from -x -a now -d 'Sum the time from this moment on'
complete -c tally -n '__tally_report_is ac' -l to -x -a now -d 'Sum the time before this moment'
complete -c tally -n '__tally_report_is ac' -l in -x -d 'Sum the time in this year, month or day'

complete -c tally -n '__tally_report_is sa' -s a -d 'Give a row to every command'
complete -c tally -n '__tally_report_is sa' -s m -d 'Sum by user'
complete -c tally -n '__tally_report_is sa' -s n -d 'Order by calls'
complete -c tally -n '__tally_report_is sa' -s r -d 'Reverse the order'
complete -c tally -n '__tally_report_is sa' -l uid -x -d 'Sum processes of this user'
complete -c tally -n '__tally_report_is sa' -l from -x -a now -d 'Sum processes that began from this moment on'
complete -c tally -n '__tally_report_is sa' -l to -x -a now -d 'Sum processes that began before this moment'
complete -c tally -n '__tally_report_is sa' -l in -x -d 'Sum processes that began in this year, month or day'
complete -c tally -n '__tally_report_is sa' -l names -r -d 'With -m, name users as this file does'

complete -c tally -n '__tally_report_is all' -l askers -x -d 'Ask reports with N threads meanwhile'
complete -c tally -n '__tally_report_is all' -f -a '(__tally_records)'

complete -c tally -n '__tally_report_is last ac all' -l until -x -a now -d 'Count open sessions up to a moment'
complete -c tally -n '__tally_report_is ac sa' -l by-file -d 'Report on each file by itself, and then on all'
complete -c tally -n '__tally_report_is last lastb ac sa check' -l csv -d 'Print one table in CSV'
complete -c tally -n '__tally_report_is last lastb check' -l paths -d 'With --csv, print the path of the file of each row'
complete -c tally -n '__tally_report_is ac sa' -l paths -d 'With --csv and --by-file, print the path of the file of each row'
complete -c tally -n '__tally_report_is last lastb ac' -s f -r -d 'Read this file, too'
complete -c tally -n '__tally_report_is last lastb ac all' -l millions -x -d 'Take up to N times 1048576 records of each kind'
complete -c tally -n '__tally_report_is last lastb ac sa all' -l feeders -x -d 'Read files with up to N threads'
complete -c tally -n '__tally_report_is last lastb ac sa all check' -l east -x -d 'Minutes east of UTC'
complete -c tally -n '__tally_report_is last lastb ac sa all check' -l west -x -d 'Minutes west of UTC'
complete -c tally -n '__tally_report_is last lastb ac sa all check' -l zone -r -a '(__tally_zones)' -d 'Local time of a zone'
complete -c tally -n '__tally_report_is last lastb ac sa all check' -s h -l help -d 'Print help'

complete -c tally -n '__tally_report_is help' -f -a 'last lastb ac sa all check help'
