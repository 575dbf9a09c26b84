#!/bin/sh
# How many lines of a statement are made and written in a second, for a member with a tenth of
# 10,000, 100,000 and 1,000,000 sales: medians of processor time. The statement of a million sales is
# first compared with the one that Python makes. From the top of the repository: sh bench/settle.sh
set -e
program=crates/bench_settle/out/bench_settle
(cd crates/bench_settle && rt run -- 240 > /dev/null)
test "$($program 1000000 | cksum)" = "$(python3 tests/office/print_statement.py 1000000 | cksum)"
python3 bench/lines.py $program
