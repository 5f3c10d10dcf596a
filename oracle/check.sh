#!/bin/sh
# check.sh PLAYER N: the examples, some edge inputs and the random scripts of seeds 1..N,
# each through the model and through PLAYER (stdin to stdout); the first difference is shown.
# Ends 0 if all agree, 1 at a difference, 2 on wrong use.
exec python3 "$(dirname "$0")/check.py" "$@"
