echo "it's 1+1" | ./sno edit -e "\"it's\" = 'it is'" -e "'+' = ' plus '"
