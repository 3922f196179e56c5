echo 'banana' | ./sno edit -e "'an' = 'AN'"
echo 'banana' | ./sno edit -e "'an' = 'AN' :first"
echo 'banana' | ./sno edit -e "POS(0) LEN(1) . FIRST = FIRST FIRST"
echo 'banana' | ./sno find --only PLACE -e "@PLACE 'n'"
