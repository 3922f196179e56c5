echo 'banana' > fruit.txt
./sno trace --on fruit.txt --match 2 -e "'an'"
