cp examples/own/lines/* .
./sno edit --with c -e "'malloc(' ARG . SIZE ')' = 'xmalloc(' SIZE ')'" list.c
./sno edit --with c -e "'copy(' ARG . FROM ',' BLANKS ARG . TO ')' = 'copy(' TO ', ' FROM ')'" list.c
./sno edit --with c -e "'log(' ARGS . WHAT ')' = 'log(stderr, ' WHAT ')'" list.c
./sno edit --with c -e "'UNUSED(' ARG . WHAT ')' = '(void)' WHAT" list.c
./sno edit -e "'#include \"' BREAK('\"') . FILE '\"' = '#include <' FILE '>'" list.c
./sno edit -d "END = NOTANY(WORD) | RPOS(0)" -e "(POS(0) | NOTANY(WORD)) . L 'cat' END . R = L 'dog' R" list.c
./sno edit -e "(POS(0) | NL) . L 'port' NSPAN(BLANK) '=' BREAK(NL) = L 'port=8080'" setup.ini
./sno edit -e "'#' BREAK(NL) NL | (BREAK(NL) NL) . LINE = LINE" setup.ini
./sno edit -e "CR NL = NL" paths.txt
./sno edit -e "POS(0) (BREAK('/') '/' BREAK('/')) . L '/' = L ':'" paths.txt
./sno edit --check -e "'d' = 'D'" paths.txt || echo "status $?"
cat list.c setup.ini paths.txt
