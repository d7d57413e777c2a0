# Completes the words of radpolicy in fish.
complete -c radpolicy -n __fish_use_subcommand -f
complete -c radpolicy -s h -l help -f -d 'Print help'

complete -c radpolicy -n __fish_use_subcommand -a run -d 'Run a policy on a request'
complete -c radpolicy -n __fish_use_subcommand -a step -d 'Step through a run, forward and backward'
complete -c radpolicy -n __fish_use_subcommand -a encode -d 'Make a packet from request lines'
complete -c radpolicy -n __fish_use_subcommand -a decode -d 'Show a packet as lines'
complete -c radpolicy -n __fish_use_subcommand -a check -d 'Check dictionaries and a policy'

complete -c radpolicy -n '__fish_seen_subcommand_from run step encode' -s f -r -F -d 'Request file'
complete -c radpolicy -n '__fish_seen_subcommand_from decode' -s f -r -F -d 'Packet file, in hexadecimal digits'
complete -c radpolicy -n '__fish_seen_subcommand_from run step encode decode' -s S -r -F -d 'File with the shared secret'
complete -c radpolicy -n '__fish_seen_subcommand_from run step check' -l policy -r -F -d 'Policy file'
complete -c radpolicy -n '__fish_seen_subcommand_from step' -l script -r -F -d 'Script file'
complete -c radpolicy -n '__fish_seen_subcommand_from run step' -l hex -d 'The request is a packet in hexadecimal digits'
complete -c radpolicy -n '__fish_seen_subcommand_from run encode' -l acct -d 'The lines are an Accounting-Request'
complete -c radpolicy -n '__fish_seen_subcommand_from run encode' -s i -x -d 'Identifier, 0 to 255'
complete -c radpolicy -n '__fish_seen_subcommand_from run encode' -l authenticator -x -d 'Request Authenticator, 32 hexadecimal digits'
