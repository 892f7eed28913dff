#!/bin/sh
# loop.sh ROW-TEST PREDICATE COUNTER BOUND IMPORT-LINE..: the answers (for fill.py) of a loop of crate `sound` that asks a row test of every
# row: `while i < n { if row(.., i) { i += 1; } else { return false; } } true`, where the row test's `ensures` is `r ≡ PREDICATE i`.
row=$1; pred=$2; i=$3; n=$4; shift 4
echo 'use Rattle·machine.specs.Tests.{all-below}'
echo 'use Rattle·sound·specs.specs.Loops.{all-none, all-turn, all-fails, all-end}'
for u in "$@"; do echo "$u"; done
cat <<F
Inv-loop: (all-below $i ($pred) ≡ true) × ($i ≤ $n)
μ-loop: $n - $i
loop-holds: (all-none _, omega arith)
$row-requires: search needs
loop-again: (all-turn _ (@loop .$i) (sym (@if1 .taken) ∙ @$row .ensures) (@loop .inv .0), omega arith)
returns: all-fails _ (@loop .$i) _ (@loop-test .taken) (sym (@if1 .left) ∙ @$row .ensures)
returns-2: all-end _ (@loop .$i) _ (omega arith) (@loop-test .left) (@loop .inv .0)
F
