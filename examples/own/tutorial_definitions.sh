echo 'pi is 3.14, e is 2' | ./sno edit -d "NUMBER = SPAN(DIGIT) ('.' SPAN(DIGIT) | '')" -e "NUMBER . N = '[' N ']'"
echo '(1 + (2 * 3)) / (4)' | ./sno find --only G -d "GROUP = '(' ARBNO(*GROUP | NOTANY('()')) ')'" -e "GROUP . G"
