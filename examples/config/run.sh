#!/usr/bin/env bash
# A configuration for production, from a base and the settings of the environment.
set -euo pipefail
cd "$(dirname "$0")"

echo "== the configuration"
merged=$(jql -s --arg host shop.example.org '
  # The later file wins, part by part.
  reduce .[] as $part ({}; . * $part)
  | .server.host = $host
  | .features |= map(select(.dev | not))
  | del(.debug)
' base.json production.json)
echo "$merged"

echo "== what changed, as settings of a shell"
jql -r --argjson base "$(jql -c . base.json)" '
  # paths(scalars) would leave out false and null: paths(f) keeps the paths for which f gives neither.
  paths(type != "object" and type != "array") as $p
  | getpath($p) as $new
  | select($new != ($base | getpath($p)))
  | ($p | map(tostring | ascii_upcase) | join("_")) as $name
  | if $new == null then "unset " + $name else $name + "=" + ($new | @sh) end
' <<< "$merged"

echo "== the password shows nowhere"
jql -c '.. |= (if type == "object" and has("password") then .password = "***" else . end) | .database' <<< "$merged"

echo "== checks"
jql -e '
  (.server.tls.enabled and .server.tls.cert == null | not)
  and (.database.pool | . >= 1 and . <= 64)
  and all(.features[]; has("name"))
' <<< "$merged"
