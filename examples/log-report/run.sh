#!/usr/bin/env bash
# A report over a log of JSON lines. Each filter reads the log once.
set -euo pipefail
cd "$(dirname "$0")"

echo "== requests by status"
jql -n -r '
  reduce inputs as $line ({}; .[$line.status | tostring] += 1)
  | to_entries[] | "\(.key)  \(.value)"
' access.jsonl

echo "== slowest requests"
jql -s -r '
  sort_by(-.ms) | limit(3; .[]) | [.ms, .status, .method, .path] | @csv
' access.jsonl

echo "== bytes by user"
jql -n -c '
  reduce (inputs | select(.user != null)) as {user: $user, bytes: $bytes} ({}; .[$user] += $bytes)
' access.jsonl

echo "== paths without their query, each once"
jql -s -c 'map(.path / "?" | first) | unique' access.jsonl

echo "== errors of the server"
jql -c 'select(.status >= 500) | {time, path}' access.jsonl

if jql -n -e 'all(inputs; .status < 500)' access.jsonl > /dev/null; then
  echo "no server errors"
else
  echo "there were server errors"
fi
