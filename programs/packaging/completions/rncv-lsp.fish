# Completion for fish: rncv-lsp.
complete -c rncv-lsp -f
complete -c rncv-lsp -l datatypes -x -a 'xml-schema profile' -d 'The datatypes that schemas may name'
complete -c rncv-lsp -l max-faults -x -d 'The most faults told of a document'
complete -c rncv-lsp -l stdio -d 'Use the standard streams (it always does)'
complete -c rncv-lsp -s h -l help -d 'A summary'
complete -c rncv-lsp -l version -d 'The version'
