# Completion of merges for fish: options, files, and the words of --order.
complete -c merges -F
complete -c merges -l null -x -d 'Text for NULL'
complete -c merges -l order -x -a 'pairs left' -d 'Order of the rows'
complete -c merges -l from -x -d 'First left place to write'
complete -c merges -l to -x -d 'Left place to end before'
complete -c merges -l copies -x -d 'How many files have the unmatched rows of each'
complete -c merges -l out-delimiter -x -a 'tab' -d 'Delimiter of the result, one character or tab'
complete -c merges -s h -l help -d 'Print help'
complete -c merges -s V -l version -d 'Print the version'
