# Completion of nomyake-play for fish.

complete -c nomyake-play -l port -x -d 'The port of 127.0.0.1'
complete -c nomyake-play -l program -r -d 'The program sno'
complete -c nomyake-play -l no-browser -d 'Open no browser'
complete -c nomyake-play -s h -l help -d 'Write a help text'
complete -c nomyake-play -s V -l version -d 'Write the name and the version'
