# The words of rblview, for fish. tools/share wrote this, from the texts that the program has of its commands.

# Whether the word that is written stands at this place, behind one of these commands.
function __rblview_at --argument-names place
    set -l words (commandline -opc)
    test (count $words) -eq $place; and contains -- $words[2] $argv[2..-1]
end

complete -c rblview -f
complete -c rblview -n 'test (count (commandline -opc)) -eq 1' -a explain -d 'what a fault or a cause means, or the names of all'
complete -c rblview -n 'test (count (commandline -opc)) -eq 1' -a trace -d 'what each turn of a run did'
complete -c rblview -n 'test (count (commandline -opc)) -eq 1' -a page -d 'a page that shows a run in a browser'
complete -c rblview -n 'test (count (commandline -opc)) -eq 1' -a explore -d 'what a program comes to over all schedules, or a schedule that leads there'
complete -c rblview -n 'test (count (commandline -opc)) -eq 1' -a faults -d 'all faults of names, limits and nesting of a program, each with its reason'
complete -c rblview -n 'test (count (commandline -opc)) -eq 1' -a help -d 'how a command is used, or all of them'
complete -c rblview -n 'test (count (commandline -opc)) -eq 1' -a version -d 'which version this is, and what is proved of it'
complete -c rblview -n '__rblview_at 2 help' -a 'explain trace page explore faults help version'
complete -c rblview -n '__rblview_at 2 explain' -a 'L0 X1 X2 X3 X4 X5 Y1 Y2 S1 S2 S3 S4 S5 S6 S7 S8 S9 S10 S11 N1 N2 N3 N4 N5 N6 N7 N8 N9 N10 N11 N12 N13 T1 T2 T3 T4 V1 V2 V3 V4 B1 B2 B3 H1 H2 H3 H4 H5 I1 I2 test fail overrun zero overflow index stack range calls depth hold inner broken'
complete -c rblview -n '__rblview_at 2 trace explore faults' -k -a '(__fish_complete_suffix .rbl)'
complete -c rblview -n '__rblview_at 2 page' -k -a '(__fish_complete_suffix .html)'
complete -c rblview -n '__rblview_at 3 trace' -k -a '(__fish_complete_suffix .schedule)'
complete -c rblview -n '__rblview_at 3 page' -k -a '(__fish_complete_suffix .rbl)'
complete -c rblview -n '__rblview_at 4 page' -k -a '(__fish_complete_suffix .schedule)'
