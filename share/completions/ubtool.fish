# Completion of ubtool for fish: subcommands, options, files, and the names of variables that the configuration on the
# command line, or /etc/fw_env.config, leads to.

function __ubtool_names
    set -l from
    set -l words (commandline -opc)
    for number in (seq 3 (count $words))
        switch $words[$number]
            case --
                break
            case -c --config
                test (count $words) -gt $number; and set -a from -c $words[(math $number + 1)]
            case --big-endian
                set -a from --big-endian
        end
    end
    ubtool printenv $from 2>/dev/null </dev/null | string replace -rf '^([A-Za-z0-9_.-]*)=.*' '$1'
end

# Whether the next word is the first of setenv that is no option.
function __ubtool_setenv_first
    set -l words (commandline -opc)
    test (count $words) -ge 2; and test $words[2] = setenv; or return 1
    set -l value
    for word in $words[3..-1]
        if test -n "$value"
            set value
            continue
        end
        if __ubtool_takes_value $word
            set value yes
        else if not string match -q -- '-*' $word
            return 1
        end
    end
end

# Whether the next word is the subcommand of help.
function __ubtool_after_help
    set -l words (commandline -opc)
    test (count $words) -eq 2; and test $words[2] = help
end

complete -c ubtool -f
complete -c ubtool -n __fish_use_subcommand -a printenv -d 'Print variables of the environment'
complete -c ubtool -n __fish_use_subcommand -a setenv -d 'Set or delete variables of the environment'
complete -c ubtool -n __fish_use_subcommand -a rehearse -d 'List every run of a boot script'
complete -c ubtool -n __fish_use_subcommand -a endings -d 'Tell how all runs of a boot script end'
complete -c ubtool -n __fish_use_subcommand -a boots -d 'Tell which boots follow one another'
complete -c ubtool -n __fish_use_subcommand -a causes -d 'Tell what has to fail for each ending of a boot script'
complete -c ubtool -n __fish_use_subcommand -a image -d 'Make an image of a text of variables'
complete -c ubtool -n __fish_use_subcommand -a inspect -d 'Tell what a configuration or an image is'
complete -c ubtool -n __fish_use_subcommand -a help -d 'Print help'
complete -c ubtool -n __fish_use_subcommand -a version -d 'Print version'
complete -c ubtool -n __ubtool_after_help -a 'printenv setenv rehearse endings boots causes image inspect'

# options: completions
# Whether the word is an option whose value comes after it.
function __ubtool_takes_value
    contains -- $argv[1] -c --config -i --image --second --text -l --lock -s --script -d --device-list --files --given -b --variable --devices --steps --shell --word --failures --after --limit --states --work --memory --boots --then --expect --within --expect-var --size --fill -o --output
end

complete -c ubtool -s h -l help -d 'Print help'
complete -c ubtool -s V -l version -d 'Print version'
complete -c ubtool -n '__fish_seen_subcommand_from printenv setenv rehearse endings boots causes inspect' -s c -l config -r -F -d 'Configuration, at most 1048576 bytes'
complete -c ubtool -n '__fish_seen_subcommand_from printenv setenv rehearse endings boots causes inspect' -s i -l image -r -F -d 'Image, at most 1048576 bytes: the whole FILE, in place of -c'
complete -c ubtool -n '__fish_seen_subcommand_from printenv setenv rehearse endings boots causes inspect' -l second -r -F -d 'Second copy of a redundant pair, beside -i: the whole FILE'
complete -c ubtool -n '__fish_seen_subcommand_from printenv rehearse endings boots causes' -l text -r -F -d 'Text for mkenvimage, at most 1048576 bytes, in place of -c'
complete -c ubtool -n '__fish_seen_subcommand_from printenv setenv rehearse endings boots causes image inspect' -l big-endian -d 'The CRC is stored big-endian'
complete -c ubtool -n '__fish_seen_subcommand_from printenv' -s l -l lock -x -a '(__fish_complete_directories)' -d 'Wait for the lock file in DIR'
complete -c ubtool -n '__fish_seen_subcommand_from setenv' -s l -l lock -x -a '(__fish_complete_directories)' -d 'Folder of the lock file'
complete -c ubtool -n '__fish_seen_subcommand_from printenv setenv' -l one-copy -d 'If one copy of a pair cannot be read, use the other'
complete -c ubtool -n '__fish_seen_subcommand_from printenv' -s n -l noheader -d 'Print the value alone, of exactly one NAME'
complete -c ubtool -n '__fish_seen_subcommand_from printenv' -s 0 -l null -d 'End each variable with a NUL byte'
complete -c ubtool -n '__fish_seen_subcommand_from printenv' -l escaped -d 'Print newlines as \\n and other bytes by their digits'
complete -c ubtool -n '__fish_seen_subcommand_from setenv' -s s -l script -r -F -d 'Script of changes, at most 1048576 bytes'
complete -c ubtool -n '__fish_seen_subcommand_from rehearse endings boots causes' -l script -r -F -d 'Script or script image, at most 1048576 bytes, in place of NAME'
complete -c ubtool -n '__fish_seen_subcommand_from rehearse endings boots causes' -s d -l device-list -r -F -d 'Device list, or a folder of them, at most 1048576 bytes: a command that may fail a line'
complete -c ubtool -n '__fish_seen_subcommand_from rehearse endings boots causes' -l files -x -d 'Folder of the files that the list names, at most 1048576 bytes each'
complete -c ubtool -n '__fish_seen_subcommand_from rehearse endings boots causes' -l steady -d 'Each question has one answer in a run'
complete -c ubtool -n '__fish_seen_subcommand_from rehearse endings boots causes' -l given -x -d 'The Kth alternative of the lines given, 1 to 64'
complete -c ubtool -n '__fish_seen_subcommand_from rehearse endings boots causes' -s b -l variable -x -a '(__ubtool_names)' -d 'Variable whose text is run'
complete -c ubtool -n '__fish_seen_subcommand_from rehearse' -l devices -x -d 'At most N device commands a run, 0 to 32; up to 1000 with --word, or with --failures of at most 3'
complete -c ubtool -n '__fish_seen_subcommand_from endings boots causes' -l devices -x -d 'At most N device commands a run, 0 to 1000'
complete -c ubtool -n '__fish_seen_subcommand_from rehearse' -l steps -x -d 'At most N steps (commands begun) a run, 0 to 1000000'
complete -c ubtool -n '__fish_seen_subcommand_from endings boots causes' -l steps -x -d 'At most N steps (commands begun) a run, 0 to 1000000'
complete -c ubtool -n '__fish_seen_subcommand_from rehearse endings boots causes' -l shell -x -a 'profile old-2023.01 old-2025.01 old modern-2025.01 modern' -d 'Run the scripts as this shell does: profile, old-2023.01, old-2025.01, old, modern-2025.01 or modern'
complete -c ubtool -n '__fish_seen_subcommand_from rehearse' -l word -x -d 'The run of WORD alone, . for the empty one'
complete -c ubtool -n '__fish_seen_subcommand_from rehearse' -l failures -x -d 'The runs in which at most N answers are failures, 0 to 32'
complete -c ubtool -n '__fish_seen_subcommand_from boots' -l failures -x -d 'Only endings that N failures or fewer lead to, 0 to 32'
complete -c ubtool -n '__fish_seen_subcommand_from causes' -l failures -x -d 'The runs in which at most N answers are failures, 0 to 3'
complete -c ubtool -n '__fish_seen_subcommand_from rehearse' -l after -x -d 'Start after the run of WORD, . for the empty one'
complete -c ubtool -n '__fish_seen_subcommand_from rehearse' -l limit -x -d 'At most N records, 1 to 4294967295'
complete -c ubtool -n '__fish_seen_subcommand_from endings boots' -l states -x -d 'At most N states in all, 0 to 4294967295'
complete -c ubtool -n '__fish_seen_subcommand_from endings boots' -l work -x -d 'At most N steps (commands begun) in all, 0 to 4294967295'
complete -c ubtool -n '__fish_seen_subcommand_from endings boots' -l memory -x -d 'At most N MiB of states in all, 0 to 4294967295'
complete -c ubtool -n '__fish_seen_subcommand_from endings' -l flow -d 'Write the states as a graph, a line each'
complete -c ubtool -n '__fish_seen_subcommand_from boots' -l boots -x -d 'At most N boots'
complete -c ubtool -n '__fish_seen_subcommand_from boots' -l then -r -F -d 'Script of changes, as for setenv -s, that may follow a boot that booted'
complete -c ubtool -n '__fish_seen_subcommand_from boots' -l expect -x -d 'Whether each boot leads on to ENDING; status 1 if not'
complete -c ubtool -n '__fish_seen_subcommand_from boots' -l within -x -d 'With --expect: within N boots, 1 to 4294967295'
complete -c ubtool -n '__fish_seen_subcommand_from boots' -l expect-var -x -d 'With --expect: ENDING leaves NAME with VALUE; may be repeated'
complete -c ubtool -n '__fish_seen_subcommand_from causes' -l check -d 'Only what does not boot; status 1 if there is any'
complete -c ubtool -n '__fish_seen_subcommand_from image' -l size -x -d 'Bytes of the image, at most 1048576'
complete -c ubtool -n '__fish_seen_subcommand_from image' -l redundant -d 'A copy of a redundant pair, with a flag'
complete -c ubtool -n '__fish_seen_subcommand_from image' -l fill -x -d 'What the free bytes are, 0 to 255 or 0x0 to 0xff'
complete -c ubtool -n '__fish_seen_subcommand_from image' -s o -l output -r -F -d 'The new image; refused if there is such a file'
# end

complete -c ubtool -n '__fish_seen_subcommand_from printenv rehearse endings boots' -a '(__ubtool_names)' -d Variable
complete -c ubtool -n '__fish_seen_subcommand_from image' -F
complete -c ubtool -n __ubtool_setenv_first -a '(__ubtool_names)' -d Variable
