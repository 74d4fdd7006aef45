"""What `radixjoin` and `arrivals` have to answer, written from docs/user/specification.md alone and in the plainest way.

No module here looks at what a program prints, and none shares code with one. A wrong input raises
`faults.Fault`, whose line and status are what the program has to tell."""
