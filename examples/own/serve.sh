echo '{"text":"T","pattern":"REM","object":"NEW","bind":{"NEW":"it is new"}}' |
    ./sno serve --store texts.store examples/first.json
./sno store check texts.store
