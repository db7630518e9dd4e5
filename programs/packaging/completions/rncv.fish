# Completion for fish: rncv.
complete -c rncv -f
complete -c rncv -n 'test (count (commandline -opc)) -eq 1' -a valid -d 'Judge the document on standard input'
complete -c rncv -n 'test (count (commandline -opc)) -eq 1' -a check -d 'Judge the schema alone'
complete -c rncv -n 'test (count (commandline -opc)) -eq 1' -a simple -d 'Print the simple form'
complete -c rncv -n 'test (count (commandline -opc)) -gt 1' -k -a '(__fish_complete_suffix .rnc)'
