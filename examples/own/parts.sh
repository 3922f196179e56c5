./sno_rewrite --json < examples/recipes/outcomes.json > listing.json
jq -c '{texts, refused}' listing.json
jq -c '.entries[] | del(.after)' listing.json
jq -c '[.entries[] | select(.matched | not) | .statement]' listing.json
jq -r '.refused[] | "\(.statement) \(.reason)"' listing.json
jq -j '.texts[] | select(.name == "A") | .text' listing.json > A.new
