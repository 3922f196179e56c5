echo 'one,  two ,three' | ./sno edit -e "NSPAN(BLANK) ',' NSPAN(BLANK) = ', '"
