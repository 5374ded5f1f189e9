# Completion of snapraid(1) for fish.

# The command among the words so far, which options may precede.
function __snapraid_command
    set -l skip 0
    for word in (commandline -opc)[2..-1]
        if test $skip = 1
            set skip 0
        else if contains -- $word -c --conf -l --log -f --filter -d --filter-disk -p --plan -o --older-than --save-every --readers
            set skip 1
        else if contains -- $word sync scrub check fix list status dup exercise
            echo $word
            return 0
        end
    end
    return 1
end

# Whether the options of one of these commands are to be offered: they are while there is no command.
function __snapraid_may
    set -l command (__snapraid_command)
    or return 0
    contains -- $command $argv
end

# The names that -d takes: disks and levels of the configuration.
function __snapraid_names
    set -l conf /etc/snapraid.conf
    set -l before
    for word in (commandline -opc)[2..-1]
        if contains -- "$before" -c --conf
            set conf $word
        else if string match -q -- '--conf=*' $word
            set conf (string replace -- '--conf=' '' $word)
        end
        set before $word
    end
    test -r $conf
    or return 0
    sed -nE -e 's/^[ \t]*(data|disk)[ \t]+([^ \t]+).*/\2\tdisk/p' \
        -e 's/^[ \t]*((6|5|4|3|2)-parity|parity)[ \t].*/\1\tlevel/p' $conf
end

complete -c snapraid -f
complete -c snapraid -n 'not __snapraid_command' -a sync -d 'write the parity of what changed'
complete -c snapraid -n 'not __snapraid_command' -a scrub -d 'check a part of what was synced, and mark bad stripes'
complete -c snapraid -n 'not __snapraid_command' -a check -d 'report what is damaged'
complete -c snapraid -n 'not __snapraid_command' -a fix -d 'restore files and parity'
complete -c snapraid -n 'not __snapraid_command' -a list -d 'print the files of the table'
complete -c snapraid -n 'not __snapraid_command' -a status -d 'print counts of the table'
complete -c snapraid -n 'not __snapraid_command' -a dup -d 'print which files hold the same'
complete -c snapraid -n 'not __snapraid_command' -a exercise -d 'try it on an array in memory'

complete -c snapraid -s c -l conf -r -F -d 'the configuration'
complete -c snapraid -s l -l log -r -F -d 'also write findings to this file'
complete -c snapraid -n '__snapraid_may check fix' -s d -l filter-disk -x -a '(__snapraid_names)' -d 'select a disk or a level'
complete -c snapraid -n '__snapraid_may check fix' -s f -l filter -x -d 'select files by a pattern'
complete -c snapraid -n '__snapraid_may check fix' -s m -l filter-missing -d 'select files that are missing'
complete -c snapraid -n '__snapraid_may check fix' -s e -l filter-error -d 'select blocks in bad stripes'
complete -c snapraid -n '__snapraid_may check' -s a -l audit-only -d 'read no parity'
complete -c snapraid -n '__snapraid_may scrub' -s p -l plan -x -a 'bad new full' -d 'which stripes are checked'
complete -c snapraid -n '__snapraid_may scrub' -s o -l older-than -x -d 'leave out those checked later than so many days ago'
complete -c snapraid -n '__snapraid_may sync' -s Z -l force-zero -d 'accept files that have become empty'
complete -c snapraid -n '__snapraid_may sync' -s E -l force-empty -d 'accept disks that lost all files'
complete -c snapraid -n '__snapraid_may sync' -l save-every -x -d 'save after so many stripes'
complete -c snapraid -n '__snapraid_may sync scrub check fix' -l readers -x -a '1 2 3 4 6 8 12 16' -d 'how many threads hash blocks'
