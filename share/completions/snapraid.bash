# Completion of snapraid(1) for bash.

# The names that -d takes: disks and levels of the configuration.
_snapraid_names() {
    [ -r "$1" ] || return 0
    sed -nE -e 's/^[ \t]*(data|disk)[ \t]+([^ \t]+).*/\2/p' -e 's/^[ \t]*((6|5|4|3|2)-parity|parity)[ \t].*/\1/p' "$1"
}

# The options that go with a command, all of them where there is none yet.
_snapraid_options() {
    local all="-c --conf -l --log"
    local chosen="-f --filter -d --filter-disk -m --filter-missing -e --filter-error"
    local planned="-p --plan -o --older-than"
    local forced="-Z --force-zero -E --force-empty --save-every"
    case ${1-} in
        sync) echo "$all $forced --readers" ;;
        scrub) echo "$all $planned --readers" ;;
        check) echo "$all $chosen -a --audit-only --readers" ;;
        fix) echo "$all $chosen --readers" ;;
        list | status | dup | exercise) echo "$all" ;;
        *) echo "$all $chosen -a --audit-only $planned $forced --readers" ;;
    esac
}

# Whether the word before takes a value.
_snapraid_takes_value() {
    case ${1-} in
        -c | --conf | -l | --log | -f | --filter | -d | --filter-disk) return 0 ;;
        -p | --plan | -o | --older-than | --save-every | --readers) return 0 ;;
    esac
    return 1
}

_snapraid() {
    local word=${COMP_WORDS[COMP_CWORD]} before=${COMP_WORDS[COMP_CWORD - 1]}
    local i=1 command='' conf=/etc/snapraid.conf option='' value
    # bash takes an equals sign for a word of its own
    if [ "$word" = = ]; then
        word=''
    elif [ "$before" = = ] && [ "$COMP_CWORD" -gt 2 ]; then
        before=${COMP_WORDS[COMP_CWORD - 2]}
    fi
    while [ "$i" -lt "$COMP_CWORD" ]; do
        value=${COMP_WORDS[i]}
        if [ -n "$option" ] && [ "$value" != = ]; then
            case $option in -c | --conf) conf=$value ;; esac
            option=''
        elif _snapraid_takes_value "$value"; then
            option=$value
        else
            case $value in sync | scrub | check | fix | list | status | dup | exercise) command=$value ;; esac
        fi
        i=$((i + 1))
    done
    COMPREPLY=()
    case $before in
        -c | --conf | -l | --log)
            compopt -o filenames 2>/dev/null
            mapfile -t COMPREPLY < <(compgen -f -- "$word")
            return
            ;;
        -d | --filter-disk)
            mapfile -t COMPREPLY < <(compgen -W "$(_snapraid_names "$conf")" -- "$word")
            return
            ;;
        -p | --plan)
            mapfile -t COMPREPLY < <(compgen -W "bad new full" -- "$word")
            return
            ;;
        --readers)
            mapfile -t COMPREPLY < <(compgen -W "1 2 3 4 6 8 12 16" -- "$word")
            return
            ;;
        -f | --filter | -o | --older-than | --save-every) return ;;
    esac
    if [[ $word == -* ]]; then
        mapfile -t COMPREPLY < <(compgen -W "$(_snapraid_options "$command")" -- "$word")
    elif [ -z "$command" ]; then
        mapfile -t COMPREPLY < <(compgen -W "sync scrub check fix list status dup exercise" -- "$word")
    fi
}

complete -F _snapraid snapraid hadlixu
