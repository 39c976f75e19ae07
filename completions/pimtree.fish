# Completion of pimtree for fish.

# Whether the command is one of these.
function __pimtree_is
    set -l words (commandline --current-process --tokenize --cut-at-cursor)
    contains -- "$words[2]" $argv
end

# Prints the files of a port, [NAME=]ADDRESS@FILE, or of a word +FILE, each as the whole word.
function __pimtree_files
    set -l word (commandline --current-token --cut-at-cursor)
    set -l parts (string match --regex '^(.*@|\+)(.*)' -- $word)
    or return
    for file in $parts[3]*
        test -d $file; and set file $file/
        echo $parts[2]$file
    end
end

set -l of_message '__pimtree_is check build'
set -l of_check '__pimtree_is check'
set -l of_run '__pimtree_is replay trace audit same mirror emit change'
set -l of_input '__pimtree_is replay same mirror emit change'
set -l of_demand '__pimtree_is same mirror emit change'
set -l of_upstream '__pimtree_is audit same mirror emit change'
set -l of_shown '__pimtree_is trace audit'
set -l of_trace '__pimtree_is trace'
set -l of_audit '__pimtree_is audit'

complete -c pimtree -f
complete -c pimtree -s h -l help -d 'Print help'
complete -c pimtree -n __fish_use_subcommand -s V -l version -d 'Print version'

complete -c pimtree -n __fish_use_subcommand -a check -d 'What does this message say?'
complete -c pimtree -n __fish_use_subcommand -a build -d 'Which bytes has this message?'
complete -c pimtree -n __fish_use_subcommand -a replay -d 'What did this router hold, and why?'
complete -c pimtree -n __fish_use_subcommand -a trace -d 'What changed in this router, and why?'
complete -c pimtree -n __fish_use_subcommand -a audit -d 'Does this router ask for what it has to?'
complete -c pimtree -n __fish_use_subcommand -a same -d 'Do two routers want the same traffic?'
complete -c pimtree -n __fish_use_subcommand -a mirror -d 'Which messages ask for this demand?'
complete -c pimtree -n __fish_use_subcommand -a emit -d 'The same messages as bytes'
complete -c pimtree -n __fish_use_subcommand -a change -d 'Which messages change the demand?'
complete -c pimtree -n __fish_use_subcommand -a session -d 'How does a router answer commands?'

complete -c pimtree -n $of_message -l src -x -d 'IP source address of the message'
complete -c pimtree -n $of_message -l dst -x -d 'IP destination address of the message'
complete -c pimtree -n $of_check -l partial -d 'Print what precedes the first fault, too'

complete -c pimtree -n $of_run -a '(__pimtree_files)'
complete -c pimtree -n $of_run -l rp -x -d 'Rendezvous point of all groups'
complete -c pimtree -n $of_run -l routes -r -F -d 'File of RPs and upstream neighbours'
complete -c pimtree -n $of_run -l limit -x -d 'Most records of a port'
complete -c pimtree -n $of_run -l after -x -d 'Milliseconds to run after the last packet'
complete -c pimtree -n $of_run -l at -x -d 'Time at which the run ends'
complete -c pimtree -n $of_run -l vlan -x -d 'Only packets of this VLAN'
complete -c pimtree -n $of_run -l interface -x -d 'Only packets of this interface'
complete -c pimtree -n $of_input -l input -x -a 'classic any' -d 'Kind of each file'
complete -c pimtree -n $of_shown -l input -x -a any -d 'Kind of each file'

complete -c pimtree -n $of_upstream -l upstream -x -d 'Upstream neighbour'
complete -c pimtree -n $of_demand -l own -x -d 'Address the messages come from'
complete -c pimtree -n $of_demand -l holdtime -x -d 'Holdtime of the messages in seconds'
complete -c pimtree -n $of_demand -l budget -x -d 'Most bytes of a message'

complete -c pimtree -n $of_audit -l local -r -F -d 'File of what receivers on own links want'
complete -c pimtree -n $of_audit -l grace -x -d 'Milliseconds that an entry may be due'

complete -c pimtree -n $of_shown -l from -x -d 'Leave out what is before this time'
complete -c pimtree -n $of_shown -l group -x -d 'Show only this group'
complete -c pimtree -n $of_trace -l source -x -d 'Show only this source, and (*,G)'
complete -c pimtree -n $of_shown -l time -x -a 'ms epoch utc' -d 'Form of times'
complete -c pimtree -n $of_trace -l all -d 'Show what changes no state, too'
complete -c pimtree -n $of_trace -l state -d 'Show at the end what the router holds and wants'
complete -c pimtree -n $of_shown -l json -d 'Write a JSON object a line'
