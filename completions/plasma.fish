# Completes the words of plasma in fish: it lies in a folder of $fish_complete_path.
complete -c plasma -f
complete -c plasma -n __fish_is_first_token -a replay -d 'run a schedule, and write what each line was answered'
complete -c plasma -n __fish_is_first_token -a brief -d 'run a schedule, and write counts of it'
complete -c plasma -n __fish_is_first_token -a make -d 'write a schedule of a seed and a count of rounds'
complete -c plasma -n __fish_is_first_token -a verify -d 'tell whether an LMS signature is valid'
complete -c plasma -n __fish_is_first_token -a init -d 'make a node in this folder'
complete -c plasma -n __fish_is_first_token -a wallet -d 'run the wallet of this folder'
complete -c plasma -n __fish_is_first_token -a operator -d 'run the operator of this folder'
complete -c plasma -n __fish_is_first_token -a watcher -d 'run the watcher of this folder'
complete -c plasma -n __fish_is_first_token -a hss -d 'make a two-level signer, sign with it, or test a signature'
complete -c plasma -n __fish_is_first_token -a audit -d 'convict an operator of a broken promise'
complete -c plasma -n __fish_is_first_token -a archive -d 'keep openings, and make bundles of them'
complete -c plasma -n __fish_is_first_token -l help -d 'show all forms'
complete -c plasma -n __fish_is_first_token -l version -d 'say which program it is'
complete -c plasma -n __fish_is_first_token -l where -d 'say which program would run, and why'

function __plasma_at -d 'whether so many words stand in front, and begin with these'
    set -l words (commandline -opc)
    set -l wanted $argv[2..-1]
    set -l last (math 1 + (count $wanted))
    test (count $words) -eq $argv[1]; and test "$words[2..$last]" = "$wanted"
end
complete -c plasma -n '__plasma_at 2 init' -a wallet -d '<tag> <account> <seed> [<lms> <ots>]'
complete -c plasma -n '__plasma_at 2 init' -a operator -d '<tag> <account> [<seed>]'
complete -c plasma -n '__plasma_at 2 init' -a watcher -d '<tag> <account>'
complete -c plasma -n '__plasma_at 2 hss' -a init -d '<seed>'
complete -c plasma -n '__plasma_at 2 hss' -a sign -d '<message>'
complete -c plasma -n '__plasma_at 2 hss' -a verify -d '<key> <message> <signature>'
complete -c plasma -n '__plasma_at 6 init wallet' -a 5 -d '32 signatures'
complete -c plasma -n '__plasma_at 6 init wallet' -a 6 -d '1,024 signatures'
complete -c plasma -n '__plasma_at 7 init wallet' -a 3 -d 'longer signatures, made and tested faster'
complete -c plasma -n '__plasma_at 7 init wallet' -a 4 -d 'shorter signatures'
