./sno trace --on examples/own/calls.c -e "'same(' BREAK(',') . A"
