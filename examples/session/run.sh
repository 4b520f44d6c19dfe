#!/usr/bin/env bash
# Bills that follow their orders while these are edited, by a client of `jql --live` in Python.
set -euo pipefail
cd "$(dirname "$0")"

python3 session.py orders.json
