# Completion of arrivals for fish: options.
complete -c arrivals -f
complete -c arrivals -l partition -x -d 'Number of the partition, 0 to 1023'
complete -c arrivals -l senders -x -d 'Number of its senders, 1 to 128'
complete -c arrivals -l block -x -d 'Most rows of a block, 1 to 65536'
complete -c arrivals -l gaps -d 'Print the gap before the held parcels of each sender'
complete -c arrivals -s h -l help -d 'Print help'
complete -c arrivals -s V -l version -d 'Print the version'
