echo 'aaab aac' | ./sno edit -e "'a' ARBNO('a') = 'X'"
echo 'aaab aac' | ./sno edit -e "'a' ARBNO('a') 'b' = 'X'"
echo 'aaab aac' | ./sno edit -e "SPAN('a') = 'X'"
echo 'ababab aba' | ./sno edit -d "MORE = 'ab' *MORE | ''" -e "'ab' MORE = 'X'"
