# The words of rbl, for fish. tools/share wrote this, from the texts that the program has of its commands.

# Whether the word that is written stands at this place, behind one of these commands.
function __rbl_at --argument-names place
    set -l words (commandline -opc)
    test (count $words) -eq $place; and contains -- $words[2] $argv[2..-1]
end

complete -c rbl -f
complete -c rbl -n 'test (count (commandline -opc)) -eq 1' -a run -d 'what a program prints, turn by turn over a schedule'
complete -c rbl -n 'test (count (commandline -opc)) -eq 1' -a survive -d 'which turns of that run survived, as a record'
complete -c rbl -n 'test (count (commandline -opc)) -eq 1' -a plain -d 'what those turns do by themselves, where nothing is undone'
complete -c rbl -n 'test (count (commandline -opc)) -eq 1' -a check -d 'whether a program is accepted, and else its first fault'
complete -c rbl -n 'test (count (commandline -opc)) -eq 1' -a code -d 'the code that a program is compiled to'
complete -c rbl -n 'test (count (commandline -opc)) -eq 1' -a trial -d 'a run of a program that is made from a number'
complete -c rbl -n 'test (count (commandline -opc)) -eq 1' -a compile -d 'a program as an image'
complete -c rbl -n 'test (count (commandline -opc)) -eq 1' -a load -d 'what a program prints that was compiled'
complete -c rbl -n 'test (count (commandline -opc)) -eq 1' -a session -d 'a run that is stepped forth and back'
complete -c rbl -n 'test (count (commandline -opc)) -eq 1' -a domino -d 'how far processes go back that have no conversations'
complete -c rbl -n 'test (count (commandline -opc)) -eq 1' -a stuck -d 'whether anything can still go on after a run, and who waits for what'
complete -c rbl -n 'test (count (commandline -opc)) -eq 1' -a help -d 'how a command is used, or all of them'
complete -c rbl -n 'test (count (commandline -opc)) -eq 1' -a version -d 'which version this is, and what is proved of it'
complete -c rbl -n '__rbl_at 2 help' -a 'run survive plain check code trial compile load session domino stuck'
complete -c rbl -n '__rbl_at 2 run survive plain check code compile session stuck' -k -a '(__fish_complete_suffix .rbl)'
complete -c rbl -n '__rbl_at 2 load' -k -a '(__fish_complete_suffix .image)'
complete -c rbl -n '__rbl_at 2 domino' -k -a '(__fish_complete_suffix .history)'
complete -c rbl -n '__rbl_at 3 run survive load session stuck' -k -a '(__fish_complete_suffix .schedule)'
complete -c rbl -n '__rbl_at 3 plain' -k -a '(__fish_complete_suffix .record)'
complete -c rbl -n '__rbl_at 4 session' -k -a '(__fish_complete_suffix .session)'
