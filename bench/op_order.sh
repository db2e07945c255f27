#!/bin/sh
# Time an operation of 1 to 4 readers of `op_order` (start, look, value, end), beside a mutex and a
# read-write lock around one number, and a publication with what it takes back; then a round of 1 to
# 3 readers and an owner beside them, and of as many readers of a lock that one thread writes. Needs
# a built program (`rt run` in crates/order_play). No part of the gate.
set -e
top=$(cd "$(dirname "$0")/.." && pwd)
program=$top/crates/order_play/out/order_play
[ -x "$program" ] || { echo "build it first: rt run in crates/order_play" >&2; exit 1; }

"$program" measure
