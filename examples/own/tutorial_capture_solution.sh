echo 'write(open(name), "x")' | ./sno edit -e "'write(' BAL . FILE ', ' BAL . WHAT ')' = FILE '.write(' WHAT ')'"
