# bash completion for tally(1)

# The names of zones: those of the files below /usr/share/zoneinfo, and local.
_tally_zones() {
    echo local
    if [ -d /usr/share/zoneinfo ]; then
        find -L /usr/share/zoneinfo \( -name posix -o -name right \) -prune -o -type f -name '[A-Z]*' -printf '%P\n'
    fi
}

# The names of files, as the shell itself offers and quotes them.
_tally_files() {
    compopt -o default
}

# A file of records after the letter of its kind. Out of quotes the shell takes the colon for a word of its own.
_tally_records() {
    local word=${1#[\'\"]} before=$2
    case $word in
        [wp]:*)
            compopt -o filenames
            mapfile -t COMPREPLY < <(compgen -P "${word%%:*}:" -f -- "${word#?:}")
            ;;
        :) _tally_files ;;
        *)
            if [ "$before" = : ]; then
                _tally_files
            else
                compopt -o nospace
                COMPREPLY=($(compgen -W 'w: p:' -- "$word"))
            fi
            ;;
    esac
}

_tally() {
    local word=${COMP_WORDS[COMP_CWORD]} before=${COMP_WORDS[COMP_CWORD - 1]} options=
    COMPREPLY=()
    if [ "$COMP_CWORD" -eq 1 ]; then
        COMPREPLY=($(compgen -W 'last lastb ac sa all check help -h --help -V --version' -- "$word"))
        return
    fi
    case ${COMP_WORDS[1]} in
        last) options='-n --user --line -s --from -t --to --in -p --at --until --csv --paths -f --millions --feeders --east --west --zone -h --help' ;;
        lastb) options='-n --sum --user --line -s --from -t --to --in --csv --paths -f --millions --feeders --east --west --zone -h --help' ;;
        ac) options='-d -p --user --line --from --to --in --until --by-file --csv --paths -f --millions --feeders --east --west --zone -h --help' ;;
        sa) options='-a -m -n -r --uid --from --to --in --names --by-file --csv --paths --feeders --east --west --zone -h --help' ;;
        all) options='--askers --until --millions --feeders --east --west --zone -h --help' ;;
        check) options='--csv --paths --east --west --zone -h --help' ;;
        help)
            COMPREPLY=($(compgen -W 'last lastb ac sa all check help' -- "$word"))
            return
            ;;
        *) return ;;
    esac
    if [ "$before" = --zone ]; then
        case $word in
            /* | .*) _tally_files ;;
            *) COMPREPLY=($(compgen -W "$(_tally_zones)" -- "$word")) ;;
        esac
        return
    fi
    case ${COMP_WORDS[1]}:$before in
        last:--user | lastb:--user | ac:--user)
            COMPREPLY=($(compgen -u -- "$word"))
            return
            ;;
        last:--until | ac:--until | all:--until | last:--from | lastb:--from | ac:--from | last:--to | lastb:--to | ac:--to | sa:--from | sa:--to | last:--at | last:-[stp] | lastb:-[st])
            COMPREPLY=($(compgen -W now -- "$word"))
            return
            ;;
        last:-f | lastb:-f | ac:-f | sa:--names)
            _tally_files
            return
            ;;
        last:--line | lastb:--line | ac:--line | *:--in | sa:--uid) return ;;
        last:-n | lastb:-n | *:--millions | *:--feeders | *:--east | *:--west | *:--askers) return ;;
    esac
    case ${COMP_WORDS[1]}:$word in
        *:-*) COMPREPLY=($(compgen -W "$options" -- "$word")) ;;
        all:*) _tally_records "$word" "$before" ;;
        *) _tally_files ;;
    esac
}

complete -F _tally tally
