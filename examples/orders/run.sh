#!/usr/bin/env bash
# Orders joined with a list of products. Prices are whole cents, so every sum is exact.
set -euo pipefail
cd "$(dirname "$0")"

products=$(jql -c 'map({(.id): .}) | add' products.json)

echo "== lines of all orders"
jql -r --argjson products "$products" '
  .order as $order | .customer as $customer
  | .lines[] as {id: $id, count: $count}
  | $products[$id]
  | [$order, $customer, (.name // "unknown product \($id)"), $count, ((.cents // 0) * $count)]
  | @csv
' orders.jsonl

echo "== bills"
jql -s -r --argjson products "$products" '
  # Whole numbers are divided without the remainder, towards 0; the sign stands apart, so that -5 is -0.05.
  def money:
    if . < 0 then "-" + (-. | money)
    else "\((. - . % 100) / 100).\(. % 100 | tostring | if length < 2 then "0" + . else . end)" end;
  group_by(.customer)[]
  | {customer: .[0].customer, total: ([.[].lines[] | ($products[.id].cents // 0) * .count] | add)}
  | "\(.customer): \(.total | money)"
' orders.jsonl

echo "== orders with products that nobody sells"
jql -c --argjson products "$products" '
  {order, unknown: [.lines[].id | select(in($products) | not)]} | select(.unknown != [])
' orders.jsonl
