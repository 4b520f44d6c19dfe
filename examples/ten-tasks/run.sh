#!/usr/bin/env bash
# Ten tasks from daily work. jq runs these filters too, and with -S it prints the same. Where one would write another command
# for jq, it stands beside as a comment, with the reason why jql does not take it.
set -euo pipefail
cd "$(dirname "$0")"

echo "== 1. package.json: what is not pinned, and the next version"
# jq: select(.value | test("^[\\^~]")). jql has no regular expressions; the text looked for is at the front.
jql -r '
  .dependencies, .devDependencies
  | to_entries[] | select(any(.value | startswith("^", "~"); .)) | "\(.key) \(.value)"
' package.json
# jq: the same.
jql -r '.version | split(".") | map(tonumber) | .[2] += 1 | join(".")' package.json

echo "== 2. docker inspect: containers, and their environment as objects"
# jq: the same; jql prints keys sorted, as jq -S.
jql -c '
  .[] | {
    name: (.Name | ltrimstr("/")), image: .Config.Image, status: (.State.Health.Status // .State.Status), restarts: .RestartCount,
    ports: [.NetworkSettings.Ports | to_entries[] | .key as $port | .value[]? | "\(.HostIp):\(.HostPort) -> \($port)"]
  }
' inspect.json
# jq: map(capture("(?<key>[^=]+)=(?<value>.*)")). Without regular expressions the first = is found by index.
jql -c '
  .[] | .Config.Env
  | map(index("=") as $i | select($i > 0) | {key: .[:$i], value: .[$i + 1:]})
  | from_entries
' inspect.json

echo "== 3. kubectl get pods -o json: pods that are not ready, images, pods on each node"
# jq: the same, three times.
jql -r '
  .items[] | select([.status.containerStatuses[]?.ready] | length == 0 or any(not))
  | [.metadata.namespace, .metadata.name, .status.phase, ([.status.containerStatuses[]?.restartCount] | add // 0)] | @tsv
' pods.json
jql -r '[.items[].spec.containers[].image] | unique[]' pods.json
jql -c '.items | group_by(.spec.nodeName) | map({(.[0].spec.nodeName // "none"): length}) | add' pods.json

echo "== 4. terraform state: the managed resources with their addresses, and the outputs without secrets"
# jq: the same, twice.
jql -r '
  .resources[] | select(.mode == "managed") | . as $r | .instances[]
  | ([$r.module, $r.type, $r.name] | map(select(. != null)) | join("."))
    + (if .index_key == null then "" else "[\(.index_key | tojson)]" end)
    + " " + .attributes.id
' terraform.tfstate
jql -c '.outputs | map_values(if .sensitive then "***" else .value end)' terraform.tfstate

echo "== 5. log lines of CI: the lines that are JSON, by step, and the errors"
# jq: jq -R 'fromjson?' ci.log | .. jql reads no raw lines, so sed makes each line a JSON string first.
lines='s/[\\"]/\\&/g; s/\t/\\t/g; s/.*/"&"/'
sed "$lines" ci.log | jql 'fromjson?' | jql -s -c 'group_by(.step)[] | {step: .[0].step, lines: length, ms: (map(.ms) | add)}'
sed "$lines" ci.log | jql -r 'fromjson? | select(.level == "error") | .text'

echo "== 6. EC2 instances: a table by name, and how many of each type run"
# jq: the same, twice.
jql -r '
  [.Reservations[].Instances[] | {id: .InstanceId, state: .State.Name, launched: .LaunchTime[:10], name: ((.Tags // []) | from_entries.Name // "-")}]
  | sort_by(.launched)[] | [.name, .id, .state, .launched] | @tsv
' instances.json
jql -c '
  reduce (.Reservations[].Instances[] | select(.State.Name == "running")) as $i ({}; .[$i.InstanceType] += 1)
' instances.json

echo "== 7. a join of two files: each order with its user"
# jq: jq --slurpfile users users.json '($users[0] | INDEX(.id)) as $user
#       | {order, cents, name: ($user[.user | tostring].name // "unknown user \(.user)")}' orders.jsonl
# jql has neither INDEX nor --slurpfile. Here the first text of all is the list of users.
jql -s -c '
  .[0] as $users | .[1:]
  | (reduce $users[] as $u ({}; .[$u.id | tostring] = $u)) as $user
  | .[] | {order, cents, name: ($user[.user | tostring].name // "unknown user \(.user)")}
' users.json orders.jsonl
# The users without an order. jq: the same.
jql -s -r '.[0][] as $u | select(all(.[1:][]; .user != $u.id)) | $u.name' users.json orders.jsonl

echo "== 8. a diff of two configurations"
# jq: the same. In both, paths(scalars) would leave out false and null.
jql -s -r '
  def leaves: [paths(type != "object" and type != "array" or length == 0)];
  . as [$old, $new]
  | ($old | leaves) as $before | ($new | leaves) as $after
  | ($before + $after | unique)[] as $p
  | ($p | map(tostring) | join(".")) as $name
  | ($old | getpath($p) | tojson) as $a | ($new | getpath($p) | tojson) as $b
  | if any($before[]; . == $p) | not then "+ \($name): \($b)"
    elif any($after[]; . == $p) | not then "- \($name): \($a)"
    elif $a != $b then "~ \($name): \($a) -> \($b)" else empty end
' old.json new.json

echo "== 9. a nested update: a new tag, one variable changed, an annotation removed"
# jq: .image |= sub(":[^:]*$"; ":" + $tag). Without regular expressions the last : is found by rindex.
jql -c --arg tag 1.5.0 '
  (.spec.template.spec.containers[] | select(.name == "web")) |= (
    .image |= .[:rindex(":")] + ":" + $tag
    | (.env[] | select(.name == "LOG") | .value) = "debug")
  | .spec.replicas += 1
  | del(.metadata.annotations["kubectl.kubernetes.io/last-applied-configuration"])
' deployment.json

echo "== 10. a report as CSV: sums and means of each region"
# jq: $total / 100 and $total / $count / 100, numbers with fractions, which lose a zero at the end (34.5 for 34.50) and may
# have many digits. jql counts cents, and divides whole numbers without the remainder.
jql -s -r '
  def money: if . < 0 then "-" + (-. | money) else "\((. - . % 100) / 100).\(. % 100 | tostring | if length < 2 then "0" + . else . end)" end;
  def div($b): (. - . % $b) / $b;
  ["region", "orders", "total", "mean", "products"],
  (group_by(.region)[]
   | length as $count | (map(.count * .cents) | add) as $total
   | [.[0].region, $count, ($total | money), ($total | div($count) | money), (map(.product) | unique | join("; "))])
  | @csv
' sales.jsonl
