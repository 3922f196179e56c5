echo 'naïve user_1 = 0x1F' > line.txt
./sno find --only N -e "SPAN(LETTER DIGIT '_') . N" line.txt
./sno find --only N -d "VOWEL = 'aeiou'" -e "ANY(VOWEL 'y') . N" line.txt
./sno edit -e "NSPAN(BLANK) '=' NSPAN(BLANK) = ': '" line.txt
cat line.txt
