./sno find -n '*.c' -e "'malloc(' BAL . SIZE ')'" examples/own/lines
./sno find --only SIZE -e "'malloc(' BAL . SIZE ')'" examples/own/lines/list.c
