./sno check -e "SPAN('a-z') . WORD = WORDS"
