# Completion of hushcheck for fish: options, files, and the names of variables that the configuration on the command line,
# or /etc/fw_env.config, leads to, as ubtool prints them.

function __hushcheck_names
    set -l from
    set -l words (commandline -opc)
    for number in (seq 2 (count $words))
        switch $words[$number]
            case --
                break
            case -c --config
                test (count $words) -gt $number; and set -a from -c $words[(math $number + 1)]
            case --big-endian
                set -a from --big-endian
        end
    end
    ubtool printenv $from 2>/dev/null </dev/null | string replace -rf '^([A-Za-z0-9_.-]*)=.*' '$1'
end

complete -c hushcheck -f
# options: completions
# Whether the word is an option whose value comes after it.
function __hushcheck_takes_value
    contains -- $argv[1] -c --config -i --image --second --text -d --device-list --files --script --shell
end

complete -c hushcheck -s h -l help -d 'Print help'
complete -c hushcheck -s V -l version -d 'Print version'
complete -c hushcheck -s c -l config -r -F -d 'Configuration, at most 1048576 bytes'
complete -c hushcheck -s i -l image -r -F -d 'Image, at most 1048576 bytes: the whole FILE, in place of -c'
complete -c hushcheck -l second -r -F -d 'Second copy of a redundant pair, beside -i: the whole FILE'
complete -c hushcheck -l text -r -F -d 'Text for mkenvimage, at most 1048576 bytes, in place of -c'
complete -c hushcheck -l big-endian -d 'The CRC is stored big-endian'
complete -c hushcheck -s d -l device-list -r -F -d 'Device list, at most 1048576 bytes, that the commands are looked up in'
complete -c hushcheck -l files -x -d 'Folder of the files that the list names, at most 1048576 bytes each'
complete -c hushcheck -l script -r -F -d 'Script or script image, at most 1048576 bytes, in place of NAME'
complete -c hushcheck -l all -d 'Check every variable of the image, after the NAMEs'
complete -c hushcheck -l shell -x -a 'profile old-2023.01 old-2025.01 old modern-2025.01 modern' -d 'Name what a rehearsal by this shell does not follow: profile, old-2023.01, old-2025.01, old, modern-2025.01 or modern'
complete -c hushcheck -l strict -d 'Exit with status 1 if there is a warning'
# end

complete -c hushcheck -a '(__hushcheck_names)' -d Variable
