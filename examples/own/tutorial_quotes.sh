echo 'a.c and abc' | ./sno edit -e "'a.c' = 'X'"
echo 'a.c and abc' | ./sno find -e "'a.c'"
