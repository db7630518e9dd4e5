# Completion for fish: xml2pyx.
complete -c xml2pyx -f
complete -c xml2pyx -k -a '(__fish_complete_suffix .xml)'
complete -c xml2pyx -l dtd -d 'Read the external DTD and external entities, from files'
complete -c xml2pyx -l lines -r -F -d 'A file for the places of the lines'
complete -c xml2pyx -s h -l help -d 'A summary'
complete -c xml2pyx -l version -d 'The version'
