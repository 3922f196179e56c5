printf 'id=7;\tname=Ada \nid=12;\tname=Bob\n' > people.txt
./sno find --only N -e "'id=' SPAN(DIGIT) . N" people.txt
./sno edit -e "SPAN(BLANK) NL = NL" -e "HT = ' '" people.txt
./sno edit -e "'id' = 'ID' :first" -e "'name=' BREAK(NL) . WHO = WHO" people.txt
cat people.txt
