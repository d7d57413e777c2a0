# Completes the words of radpolicy-lint in fish.
complete -c radpolicy-lint -s h -l help -f -d 'Print help'
complete -c radpolicy-lint -l policy -r -F -d 'Policy to look at'
complete -c radpolicy-lint -s f -r -F -d 'Request of lines to look at'
complete -c radpolicy-lint -l format -x -a 'text gcc json' -d 'Form of the output'
complete -c radpolicy-lint -l strict -d 'Status 1 if there is a warning'
complete -c radpolicy-lint -l hide -x -d 'Attribute whose values are hidden too'
complete -c radpolicy-lint -s D -x -a '(__fish_complete_directories)' -d 'Folder of the dictionaries'
