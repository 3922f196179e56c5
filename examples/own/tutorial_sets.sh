echo 'call 555 1234 now' | ./sno edit -e "SPAN(DIGIT) . N = '<' N '>'"
echo 'call 555 1234 now' | ./sno edit -e "ANY(DIGIT) = '#'"
echo 'name: Ada; born: 1815' | ./sno find --only KEY -e "SPAN(LETTER) . KEY ':'"
echo 'name: Ada; born: 1815' | ./sno edit -e "': ' BREAK(';' NL) . VALUE = '=' VALUE"
