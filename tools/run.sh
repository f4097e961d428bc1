#!/bin/sh
# Runs a program in the current folder as rt runs programs.
#   tools/run.sh PROGRAM [WORD ..]
set -eu
exec "$@"
