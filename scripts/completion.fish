# Completion for fish: subcommands and their flags, which the program tells itself, packages and trees.

# The subcommand that stands on the line, if one does.
function __coizkerra_command
    set -l words (commandline -opc)
    if test (count $words) -ge 2
        echo $words[2]
    end
end

function __coizkerra_is
    contains -- (__coizkerra_command) $argv
end

# The root that stands on the line: the last `--root DIR` or `--root=DIR`.
function __coizkerra_root
    set -l root /
    set -l wanted 0
    for word in (commandline -opc)
        if test $wanted -eq 1
            set root $word
        end
        set wanted 0
        switch $word
            case --root
                set wanted 1
            case '--root=*'
                set root (string replace -- --root= '' $word)
        end
    end
    echo $root
end

function __coizkerra_packages
    coizkerra list --root (__coizkerra_root) 2>/dev/null | string replace -r ' .*' ''
end

function __coizkerra_flags
    coizkerra help (__coizkerra_command) 2>/dev/null | string replace -rf '^  (--[a-z-]+).*' '$1'
    echo --help
end

function __coizkerra_selections
    for package in (__coizkerra_packages)
        for want in install hold deinstall purge
            echo $package=$want
        end
    end
end

complete -c coizkerra -f
complete -c coizkerra -n 'test -z (__coizkerra_command)' -a '(coizkerra 2>/dev/null) --help --version'
complete -c coizkerra -n 'test -n (__coizkerra_command); and string match -q -- "-*" (commandline -ct)' -a '(__coizkerra_flags)'
complete -c coizkerra -n '__coizkerra_is help' -a '(coizkerra 2>/dev/null)'
complete -c coizkerra -n '__coizkerra_is configure remove purge list selections status listfiles verify' -a '(__coizkerra_packages)'
complete -c coizkerra -n '__coizkerra_is select' -a '(__coizkerra_selections)'
complete -c coizkerra -n '__coizkerra_is unpack install search truename divert undivert' -F
