cat > document.json << 'END'
{"texts": [{"name": "T", "text": "a cat"}],
 "statements": [
  {"text": "T", "pattern": "'cat'| 'dog'"},
  {"text": "T", "pattern": "'c' ARB . REST", "objekt": "'C'"}]}
END
./sno check document.json || echo "status $?"
