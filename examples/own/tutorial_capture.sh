echo 'Doe, John' | ./sno edit -e "SPAN(LETTER) . LAST ', ' SPAN(LETTER) . FIRST = FIRST ' ' LAST"
echo 'max(f(1, 2), 3)' | ./sno edit -e "'max(' BAL . A ', ' BAL . B ')' = 'max(' B ', ' A ')'"
