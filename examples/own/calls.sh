cp examples/own/calls.c calls.c
./sno edit -e "'same(' BAL . A ', ' BAL . B ')' = 'expect(' B ').to_be(' A ')'" calls.c
cat calls.c
