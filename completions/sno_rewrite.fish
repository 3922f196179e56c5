# Completion of sno_rewrite for fish. Made by tools/pages_of.

complete -c sno_rewrite -f
complete -c sno_rewrite -l workers -x -a '1 2 3 4 5 6 7 8 9 10 11 12 13 14 15 16' -d 'Shares the statements out among N workers'
complete -c sno_rewrite -l tries -x -a '1 10 100 1000' -d 'How often a worker tries a statement'
complete -c sno_rewrite -l anchor -d 'Anchors each statement that does not say whether it is anchored'
complete -c sno_rewrite -l json -d 'Writes the listing as JSON'
complete -c sno_rewrite -l trials -x -a '1000 1000000 1000000000' -d 'How many trials a match may take'
complete -c sno_rewrite -s h -l help -d 'Print help'
complete -c sno_rewrite -s V -l version -d 'Print version'
