# Completion for fish: rncv-profile.
complete -c rncv-profile -f
complete -c rncv-profile -k -a '(__fish_complete_suffix .rnc)'
complete -c rncv-profile -s o -l write -x -a '(__fish_complete_directories)' -d 'Write copies that are inside the profile'
complete -c rncv-profile -l datatypes -x -a 'profile xml-schema' -d 'The datatypes that are served'
complete -c rncv-profile -l watch -d 'With --write, write them again after each change'
complete -c rncv-profile -s h -l help -d 'A summary'
