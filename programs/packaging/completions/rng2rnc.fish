# Completion for fish: rng2rnc.
complete -c rng2rnc -f
complete -c rng2rnc -k -a '(__fish_complete_suffix .rng)'
complete -c rng2rnc -s o -l output -x -a '(__fish_complete_directories)' -d 'Write the schema and what it mentions into a folder'
complete -c rng2rnc -l map -r -F -d 'The file that an href means'
complete -c rng2rnc -l catalog -r -F -d 'An XML catalog'
complete -c rng2rnc -s h -l help -d 'A summary'
complete -c rng2rnc -l version -d 'The version'
