printf 'EDGE = NL | RPOS(0)\n  SPAN(BLNK) EDGE . E = E\n' > blanks.sno
./sno edit -f blanks.sno examples/own/calls.c || echo "status $?"
