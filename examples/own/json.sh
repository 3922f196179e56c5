cp examples/own/calls.c calls.c
./sno edit examples/own/calls.json calls.c
cat calls.c
