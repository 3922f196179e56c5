echo 'ha hahaha haha' | ./sno edit -d "MORE = 'ha' *MORE | ''" -e "'ha' MORE . REST = 'H' REST"
