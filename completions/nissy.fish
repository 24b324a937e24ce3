# Completion of nissy's commands and step names in fish. Moves and numbers are the user's own, and files stand only after < and >.
complete -c nissy -f
complete -c nissy -n __fish_use_subcommand -a invert -d 'the inverse of each line'
complete -c nissy -n __fish_use_subcommand -a unniss -d 'each line in one list without brackets'
complete -c nissy -n __fish_use_subcommand -a cleanup -d 'face turns, merged, and one rotation'
complete -c nissy -n __fish_use_subcommand -a print -d 'the 54 letters of the cube'
complete -c nissy -n __fish_use_subcommand -a solve -d 'every shortest solution of a step'
complete -c nissy -n __fish_use_subcommand -a count -d 'length, number and positions looked at'
complete -c nissy -n __fish_use_subcommand -a near -d 'solutions up to some turns longer'
complete -c nissy -n __fish_use_subcommand -a scramble -d 'random moves from a seed'
complete -c nissy -n __fish_use_subcommand -a steps -d 'the names of the steps'
complete -c nissy -n '__fish_seen_subcommand_from solve count near; and test (count (commandline -opc)) -eq 2' \
    -a 'eofb eorl eoud drud-eofb drrl-eofb drud-eorl drfb-eorl drrl-eoud drfb-eoud eo dr-eofb dr-eorl dr-eoud'
