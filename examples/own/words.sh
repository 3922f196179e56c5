printf 'cat cat concat\n' > words.txt
./sno edit -d "WORDS = BREAK(WORD) ARBNO(SPAN(WORD) BREAK(WORD))" \
    -e "WORDS . K 'cat' (NOTANY(WORD) | RPOS(0)) . R = K 'dog' R :anchored" words.txt
cat words.txt
