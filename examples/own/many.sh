set -o pipefail
for file in examples/own/many/*.txt; do
    new="$(basename "$file").new"
    jq --rawfile text "$file" '.texts = [{name: "notes", text: $text}]' examples/own/rules.json |
        ./sno_rewrite --json | jq -j '.texts[0].text' > "$new" || rm "$new"
done
head *.new
