#!/usr/bin/env bash
# Measures the built program over jobs of several sizes:
#
#     bench/run.sh crates/mpc_main/out/mpc_main [OPTION..]
#
# The options are given on to 'mpc run FOLDER', as '--workers 4'. Makes the jobs in a temporary folder, goes through them ROUNDS times
# (50, where the environment doesn't say), compares what each run writes with what the plain circuit gives, and prints a row of a
# table for each job, with the best of its runs. Ends with status 1 where a run failed.
set -u
here=$(cd "$(dirname "$0")" && pwd)
if [ $# -lt 1 ] || [ ! -x "$1" ] || [ -d "$1" ]; then
    echo 'usage: bench/run.sh PROGRAM [OPTION..]' >&2
    exit 2
fi
program=$(cd "$(dirname "$1")" && pwd)/$(basename "$1")
shift
work=$(mktemp -d) || exit 1
trap 'rm -rf "$work"' EXIT
python3 "$here/make_jobs.py" "$work" >"$work/list" || exit 1
python3 "$here/measure.py" "$work" "${ROUNDS:-50}" "$program" "$@" <"$work/list"
