# Completions of `ladder` for fish: subcommands, options, files, and the names of the program that stands on the line.

# The words of the line that are neither options nor their values: the subcommand, the program, and so on.
function __ladder_places
    set -l words (commandline -opc)[2..-1]
    set -l due 0
    for word in $words
        if test $due = 1
            set due 0
        else if contains -- $word --state --new-state --at --after --upto --limit --scans --for --every --assume --looks --order --number --stimulus --coil --all-coils --save --watch --expect --states --both --gap --control --hal --pou --name
            set due 1
        else if not string match -q -- '-*' $word
            echo $word
        end
    end
end

# Whether the subcommand stands there, with so many places behind it.
function __ladder_at
    set -l places (__ladder_places)
    test (count $places) -gt 0; and contains -- $places[1] (string split , $argv[1]); or return 1
    switch $argv[2]
        case more
            test (count $places) -gt $argv[3]
        case '*'
            test (count $places) = $argv[2]
    end
end

# Whether each coil is meant, so that none is named.
function __ladder_each
    contains -- --all-coils (commandline -opc)
end

# The variables that a coil of the program writes.
function __ladder_coils
    set -l places (__ladder_places)
    ladder uses $places[2] 2> /dev/null | awk -F, '$2 ~ /coil/ && !seen[$1]++ { print $1 }'
end

# What can come ON: these variables, and the outputs of the blocks, as the trace of no scan names them.
function __ladder_targets
    set -l places (__ladder_places)
    __ladder_coils
    printf 'moment\n' | ladder sim --watch-all $places[2] - 2> /dev/null | tr , '\n' | grep -E '\.Q1?$'
end

# All variables and instances of the program.
function __ladder_names
    set -l places (__ladder_places)
    ladder uses $places[2] 2> /dev/null | awk -F, 'NR > 1 && !seen[$1]++ { print $1 }'
end

# The inputs that the program declares, where each declaration has its line.
function __ladder_inputs
    set -l places (__ladder_places)
    sed -n 's/^[[:space:]]*\([A-Za-z_][A-Za-z0-9_]*\)[[:space:]]*\((\*[^*]*\*)\)\{0,1\}[[:space:]]\{1,\}[Aa][Tt][[:space:]]\{1,\}%[Ii].*/\1/p' $places[2] 2> /dev/null
end

# The codes of all faults.
function __ladder_codes
    ladder explain 2> /dev/null | sed 's/:.*//'
end

complete -c ladder -f
complete -c ladder -s h -l help -d 'Print help'
complete -c ladder -n 'test (count (__ladder_places)) = 0' -a check -d 'Check a program'
complete -c ladder -n 'test (count (__ladder_places)) = 0' -a causes -d 'List what switches a coil ON'
complete -c ladder -n 'test (count (__ladder_places)) = 0' -a show -d 'Print the drawing with its power flow'
complete -c ladder -n 'test (count (__ladder_places)) = 0' -a sim -d 'Scan a stimulus record by record'
complete -c ladder -n 'test (count (__ladder_places)) = 0' -a uses -d 'Print where each name is drawn'
complete -c ladder -n 'test (count (__ladder_places)) = 0' -a reach -d 'Write a run that switches a coil ON, or say that there is none'
complete -c ladder -n 'test (count (__ladder_places)) = 0' -a diff -d 'Say what a change of a program changes'
complete -c ladder -n 'test (count (__ladder_places)) = 0' -a draw -d 'Draw a program in Structured Text'
complete -c ladder -n 'test (count (__ladder_places)) = 0' -a export -d 'Write a program in Structured Text or PLCopen XML'
complete -c ladder -n 'test (count (__ladder_places)) = 0' -a import -d 'Write the program text of a project of ClassicLadder or PLCopen XML'
complete -c ladder -n 'test (count (__ladder_places)) = 0' -a never -d 'Print what can never come ON'
complete -c ladder -n 'test (count (__ladder_places)) = 0' -a explain -d 'Say what a fault means'
complete -c ladder -n 'test (count (__ladder_places)) = 0' -a help -d 'Print help'
complete -c ladder -n '__ladder_at help 1' -a 'check causes show sim uses never reach diff draw export import explain'

complete -c ladder -n '__ladder_at check,causes,show,sim,uses,never,reach,diff,draw,export,import more 0' -l why -d 'Faults are explained'
complete -c ladder -n '__ladder_at check,causes,show,sim,uses,never,diff,export more 0' -l aliases -d 'Aliases in place of names'
complete -c ladder -n '__ladder_at export more 0' -l st -d 'Structured Text'
complete -c ladder -n '__ladder_at export more 0' -l xml -d 'A ladder diagram in PLCopen XML'
complete -c ladder -n '__ladder_at export more 0' -l name -x -d 'The name of the program'
complete -c ladder -n '__ladder_at export more 0' -l bits -d 'Addresses by byte and bit'
complete -c ladder -n '__ladder_at export more 0' -l codesys -d 'Inputs of bistables as CODESYS calls them'
complete -c ladder -n '__ladder_at check more 0' -l warn -d 'What is most likely not meant'
complete -c ladder -n '__ladder_at causes,show more 0' -l all-inputs -d 'All inputs, in order of declaration'
complete -c ladder -n '__ladder_at causes more 0' -l all-coils -x -a '(__fish_complete_directories)' -d 'Each coil, a file for each in this folder'
complete -c ladder -n '__ladder_at causes,diff more 0' -l progress -d 'Tell how far the list is, about once a second'
complete -c ladder -n '__ladder_at causes,never,diff more 0' -l quiet -d 'No line of counts'
complete -c ladder -n '__ladder_at never more 0' -l off -d 'What can never go OFF'
complete -c ladder -n '__ladder_at never more 0' -l assume -x -d 'Scans with whose inputs this expression is true alone'
complete -c ladder -n '__ladder_at never more 0' -l assumed -d 'Scans in which what comments assume is true alone'
complete -c ladder -n '__ladder_at never more 0' -l pairs -d 'Pairs that are never both ON'
complete -c ladder -n '__ladder_at causes,show,sim,never,reach more 0' -l state -r -F -d 'The state to begin in'
complete -c ladder -n '__ladder_at reach more 0' -l at -x -d 'The moment from which on the scans are in ms'
complete -c ladder -n '__ladder_at reach more 0' -l every -x -d 'One scan every so many ms'
complete -c ladder -n '__ladder_at reach more 0' -l scans -x -d 'With --every, runs of at most so many scans'
complete -c ladder -n '__ladder_at reach more 0' -l states -x -d 'At most so many states are kept'
complete -c ladder -n '__ladder_at reach more 0' -l both -x -a '(__ladder_targets)' -d 'This one ON after the same scan'
complete -c ladder -n '__ladder_at reach more 0' -l assume -x -d 'Scans with whose inputs this expression is true alone'
complete -c ladder -n '__ladder_at reach more 0' -l assumed -d 'Scans in which what comments assume is true alone'
complete -c ladder -n '__ladder_at reach more 0' -l gap -x -d 'How far apart the scans are where they can be, in ms'
complete -c ladder -n '__ladder_at reach more 0' -l progress -d 'Tell how far the search is, about once a second'
complete -c ladder -n '__ladder_at diff more 0' -l state -r -F -d 'The state of the old program to begin in'
complete -c ladder -n '__ladder_at diff more 0' -l new-state -r -F -d 'The state of the new program'
complete -c ladder -n '__ladder_at diff more 0' -l at -x -d 'The moment of the scan in ms'
complete -c ladder -n '__ladder_at diff more 0' -l after -x -d 'Rows with a greater number only'
complete -c ladder -n '__ladder_at diff more 0' -l upto -x -d 'Rows up to this number only'
complete -c ladder -n '__ladder_at diff more 0' -l limit -x -d 'At most so many rows'
complete -c ladder -n '__ladder_at diff more 0' -l scans -x -d 'Over so many scans, with the inputs held'
complete -c ladder -n '__ladder_at diff more 0' -l for -x -d 'Over all scans up to so many ms, with the inputs held'
complete -c ladder -n '__ladder_at diff more 0' -l every -x -d 'With --scans or --for, the time between two in ms'
complete -c ladder -n '__ladder_at diff more 0' -l assume -x -d 'Scans with whose inputs this expression is true in both'
complete -c ladder -n '__ladder_at diff more 0' -l assumed -d 'Scans in which what comments assume is true alone'
complete -c ladder -n '__ladder_at diff more 0' -l reachable -d 'Without a coil, states with what never says alone'
complete -c ladder -n '__ladder_at diff more 0' -l runs -d 'Without a coil, runs from the fresh states'
complete -c ladder -n '__ladder_at diff more 0' -l states -x -d 'With --runs, at most so many states in a search'
complete -c ladder -n '__ladder_at diff more 0' -l save -x -a '(__fish_complete_directories)' -d 'Without a coil, the folder that gets the states or runs of each difference'
complete -c ladder -n '__ladder_at diff more 0' -l looks -x -d 'Without a coil, at most so many looks for a verdict'
complete -c ladder -n '__ladder_at diff more 0' -l grouped -d 'The combinations in groups'
complete -c ladder -n '__ladder_at diff more 0' -l terms -d 'Groups as terms'
complete -c ladder -n '__ladder_at diff more 0' -l st -d 'Groups as two statements in Structured Text'
complete -c ladder -n '__ladder_at diff more 0' -l all-inputs -d 'All inputs that both have'
complete -c ladder -n '__ladder_at import more 0' -l open -d 'Compares, steps and unknown blocks have any value'
complete -c ladder -n '__ladder_at import more 0' -l control -x -a on -d 'The control input of timers that have none'
complete -c ladder -n '__ladder_at import more 0' -l hal -r -F -d 'A HAL file with names'
complete -c ladder -n '__ladder_at import more 0' -l pou -x -d 'The program with this name in PLCopen XML'
complete -c ladder -n '__ladder_at causes,show more 0' -l at -x -d 'The moment of the scan in ms'
complete -c ladder -n '__ladder_at causes more 0' -l after -x -d 'Causes with a greater number only'
complete -c ladder -n '__ladder_at causes more 0' -l upto -x -d 'Causes up to this number only'
complete -c ladder -n '__ladder_at causes more 0' -l limit -x -d 'At most so many rows'
complete -c ladder -n '__ladder_at causes more 0' -l scans -x -d 'Over so many scans, with the inputs held'
complete -c ladder -n '__ladder_at causes more 0' -l for -x -d 'Over all scans up to so many ms, with the inputs held'
complete -c ladder -n '__ladder_at causes more 0' -l every -x -d 'With --scans or --for, the time between two in ms'
complete -c ladder -n '__ladder_at causes more 0' -l assume -x -d 'Combinations with which this expression is true alone'
complete -c ladder -n '__ladder_at causes more 0' -l assumed -d 'Combinations with which what comments assume is true alone'
complete -c ladder -n '__ladder_at causes more 0' -l grouped -d 'The causes in groups'
complete -c ladder -n '__ladder_at causes more 0' -l terms -d 'Groups as terms'
complete -c ladder -n '__ladder_at causes more 0' -l st -d 'Groups as a statement in Structured Text'
complete -c ladder -n '__ladder_at causes,diff more 0' -l order -x -a 'auto given' -d 'The order of the inputs'
complete -c ladder -n '__ladder_at causes more 0' -l any -d 'What some state switches on'
complete -c ladder -n '__ladder_at causes more 0' -l off -d 'With --any, states in which the coil is OFF alone'
complete -c ladder -n '__ladder_at causes more 0' -l must -d 'With --any, what leaves it ON from every state'
complete -c ladder -n '__ladder_at causes more 0' -l reachable -d 'With --any, states with what never says alone'
complete -c ladder -n '__ladder_at causes more 0' -l looks -x -d 'With --any, at most so many looks for a row'
complete -c ladder -n '__ladder_at causes more 0' -l runs -d 'With --any, rows to which a run comes are marked'
complete -c ladder -n '__ladder_at causes more 0' -l states -x -d 'With --runs, at most so many states are kept for a row'
complete -c ladder -n '__ladder_at causes more 0' -l relevant -d 'The inputs that matter to the coil in this scan'
complete -c ladder -n '__ladder_at show more 0' -l number -x -d 'The number of the row'
complete -c ladder -n '__ladder_at show more 0' -l assume -x -d 'An expression that is true of the inputs'
complete -c ladder -n '__ladder_at show more 0' -l assumed -d 'What comments assume is true of the inputs'
complete -c ladder -n '__ladder_at show more 0' -l html -d 'One page of HTML'
complete -c ladder -n '__ladder_at show more 0' -l stimulus -r -F -d 'One scan for each record'
complete -c ladder -n '__ladder_at show more 0' -l coil -x -a '(__ladder_coils)' -d 'Why this coil has power, or none'
complete -c ladder -n '__ladder_at sim more 0' -l every -x -d 'Also scans between the records, so many ms apart'
complete -c ladder -n '__ladder_at sim more 0' -l watch -x -a '(__ladder_names)' -d 'A variable or a block beside the outputs'
complete -c ladder -n '__ladder_at sim more 0' -l watch-all -d 'All memory variables and blocks beside the outputs'
complete -c ladder -n '__ladder_at sim more 0' -l changes -d 'Rows only where something else than the moment changes'
complete -c ladder -n '__ladder_at sim more 0' -l expect -r -F -d 'The first row that differs from this trace'
complete -c ladder -n '__ladder_at sim more 0' -l progress -d 'Tell how far the simulation is, about once a second'
complete -c ladder -n '__ladder_at sim more 0' -l vcd -d 'A waveform in place of the trace'
complete -c ladder -n '__ladder_at sim more 0' -l save -r -F -d 'The file that gets the state after the last scan'

complete -c ladder -n '__ladder_at check,causes,show,sim,uses,never,reach,diff,draw,export,import 1' -F
complete -c ladder -n '__ladder_at sim,diff 2' -F
complete -c ladder -n '__ladder_at explain more 0' -a '(__ladder_codes)'
complete -c ladder -n '__ladder_at causes 2; and not __ladder_each' -a '(__ladder_coils)'
complete -c ladder -n '__ladder_at causes 2; and __ladder_each' -a '(__ladder_inputs)'
complete -c ladder -n '__ladder_at causes more 2' -a '(__ladder_inputs)'
complete -c ladder -n '__ladder_at diff 3' -a '(__ladder_coils)'
complete -c ladder -n '__ladder_at diff more 3' -a '(__ladder_inputs)'
complete -c ladder -n '__ladder_at reach 2' -a '(__ladder_targets)'
complete -c ladder -n '__ladder_at reach more 2' -a '(__ladder_inputs)'
complete -c ladder -n '__ladder_at show more 1' -a '(__ladder_inputs)'
