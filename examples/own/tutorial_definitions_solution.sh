echo 'x = [[1], [2, [3]]]; y = [4]' | ./sno edit -d "LIST = '[' *ITEM ARBNO(', ' *ITEM) ']'" -d "ITEM = LIST | SPAN(DIGIT)" -e "LIST = 'LIST'"
