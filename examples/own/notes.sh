cp examples/own/many/*.txt .
./sno check --rules examples/own/notes.json
./sno edit --diff examples/own/notes.json ./*.txt > notes.diff
./sno edit examples/own/notes.json ./*.txt
cat ./*.txt
