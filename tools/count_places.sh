#!/usr/bin/env bash
# count_places.sh: the places of each point of docs/DESIGN-PASS.md, counted in crates/*/src of the checkout that it is run in.
# Each line: the point, what is counted, the number. With LIST=1 each place too.
cd "$(git rev-parse --show-toplevel)"
say() { # point, words; places on standard input
    local lines; lines=$(cat); local n=0
    [ -z "$lines" ] || n=$(printf '%s\n' "$lines" | wc -l)
    printf '%s\t%5d  %s\n' "$1" "$n" "$2"
    [ -z "${LIST:-}" ] || printf '%s\n' "$lines" | sed 's/^/      /'
}
src='crates/*/src/*.rt'
# 1
say 1 "enums with a variant None, Nothing, Nowhere or Some beside others (Option-shaped)" < <(awk '/^(pub )?enum /{n=$0; f=FILENAME; v=0; c=0} n{ if ($0 ~ /^    (None|Nothing|Nowhere),/) v=1; if ($0 ~ /^    [A-Z]/) c++ } /^}/{ if (n && v && c==2) print f": "n; n="" }' $src)
say 1 "enums with a variant Refused beside others (Result-shaped)" < <(awk '/^(pub )?enum /{n=$0; f=FILENAME; v=0} n{ if ($0 ~ /^    Refused/) v=1 } /^}/{ if (n && v) print f": "n; n="" }' $src)
say 1 "uses of number codes for refusals: Refused(NUMBER), refuse(NUMBER)" < <(grep -nE 'Refused\([0-9]+\)|refuse\([0-9]+\)' $src)
say 1 "parameters, fields and results that hold a refusal as a number" < <(grep -nE 'refusal: u[0-9]+|Refused\(u[0-9]+\)|-> u16 *$' $src | grep -E 'refus|Refus|stop_refusal')
say 1 "uses of the own options (OptionValue::, FoundTask::, FoundObject::, OptionAwaited::, NewFunction::, Onward::, Position::, Turn::, Reading::, Parsed::, ItemPoll::)" < <(grep -noE '\b(OptionValue|FoundTask|FoundObject|OptionAwaited|NewFunction|Onward|Position|Turn|Reading|Parsed|ItemPoll)::[A-Z][a-z]+' $src)
# 3
say 3 "while loops that count an index" < <(grep -nE '^ *while ' $src | grep -vE 'takes\(|low < high|0 < d |w.depth|done < buf')
say 3 "while loops in all" < <(grep -nE '^ *while ' $src)
say 3 "nested ifs that spell && or || (return false; } false and the like)" < <(grep -nEA4 '^ *if ' $src | grep -E '^[^ ]*-[0-9]+- *return (true|false);')
# 4
say 4 "functions that convert an id to and from its word by hand: from_word, word, new" < <(grep -nE 'fn (from_word|word|new)\(' $src)
say 4 "functions that convert kinds, states, options and errors to and from words (to_*, *_words, kind_word)" < <(grep -nE 'fn (to_[a-z0-9]+|[a-z]+_words|kind_word)\(' $src)
say 4 "predicates that spell each arm (two or more arms => false)" < <(awk '/^ *(pub(\(crate\))? )?(const )?fn /{ if (n && k>=2) print n; n=FILENAME":"FNR": "$0; k=0 } /=> (false|true),/{k++} END{ if (n && k>=2) print n }' $src)
say 4 "functions that compare two values by hand (same8, *_changed, eq)" < <(grep -nE 'fn ([a-z0-9_]*(same8|_changed|_eq|is_same|equals?)|eq)\(' $src)
say 4 "structs copied field by field to change one (Header { made: header.made ..)" < <(grep -nE '^ *[a-z]+: (header|h|old|task|x|s|w|driven|r|asked|c)\.[a-z]+,$' $src)
say 4 "comparisons of an id's inner number (x.0 == y.0, != )" < <(grep -nE '\.0 (==|!=) [a-z_.]*\.0|\.0 == [a-z0-9]|\.0 != [a-z0-9]' $src)
say 4 "functions that print by hand: put_*, write_*" < <(grep -nE 'fn (put|write)_[a-z]+\(' $src)
say 4 "let NAME = x.NAME; locals that copy a field before its use" < <(grep -nE '^ *let ([a-z_]+) = [a-z_]+\.\1;$' $src)
say 4 "match arms that name each variant to return the same value (=> false, None, NONE)" < <(grep -nE '^ *[A-Za-z]+::[A-Z][A-Za-z]*.*=> (false|true|[A-Za-z]+::(None|Nothing|Nowhere)),' $src)
# 5
say 5 "requires with a length fact (TasksLength, ObjectsLength, PlacesLength, Lengths*)" < <(grep -nE 'requires .*(TasksLength|ObjectsLength|PlacesLength|Lengths[A-Z]?[a-z]*)' $src)
for f in TasksLength ObjectsLength PlacesLength Lengths; do
    say 5 "  of them with $f" < <(grep -nE "requires .*\b$f" $src)
done
say 5 "requires with a range of a task's number (t.0 < task_limit and the like)" < <(grep -nE 'requires .*< task_limit' $src)
say 5 "requires with a range of an object's number (.. < object_limit)" < <(grep -nE 'requires .*< object_limit' $src)
say 5 "requires with a range of a place's number (.. place_limit)" < <(grep -nE 'requires .*place_limit' $src)
awk '/^ *(pub(\(crate\))? )?fn /{sig=""; on=1; at=FILENAME":"FNR": "$0} on{sig=sig $0} on && /^ *(requires|ensures|\{|where)|\{$/{on=0; gsub(/[ \n]+/," ",sig); print at"\t"sig}' $src >/tmp/sigs.$$
say 5 "functions with tasks and objects as parameters" < <(grep -E 'tasks: &.*objects: &' /tmp/sigs.$$ | cut -f1)
say 5 "functions with tasks, objects and places" < <(grep -E 'tasks: &.*objects: &.*places: &' /tmp/sigs.$$ | cut -f1)
say 5 "functions with tasks, objects, places and calls" < <(grep -E 'tasks: &.*objects: &.*places: &.*calls: &' /tmp/sigs.$$ | cut -f1)
say 5 "functions with ids and len (a queue in two parts)" < <(grep -E 'ids: &?(mut )?\[.*(len|n|count): ' /tmp/sigs.$$ | cut -f1)
say 5 "functions with out and at (a buffer and how far it is written)" < <(grep -E 'out: &mut \[u8\], at: usize' /tmp/sigs.$$ | cut -f1)
say 5 "functions with first and count (a stretch of places)" < <(grep -E 'first: u16, count: u16' /tmp/sigs.$$ | cut -f1)
# 6
say 6 "an array or slice with its length beside it (ids and len, ids and n, items and count)" < <(grep -E '(ids|words|items|stack|marks|table|entries): [^,]*, *(len|n|count|depth): ' /tmp/sigs.$$ | cut -f1)
say 6 "parallel arrays (tasks, objects, places by a number)" < <(grep -E 'marks: .*stack: |stack: .*at: ' /tmp/sigs.$$ | cut -f1)
rm -f /tmp/sigs.$$
# 7
say 7 "switches on which step to run (match event/kind/letter)" < <(grep -nE '^ *match (event|kind|letter|what|c\.letter|command|told|record|asks\.event|step)[^a-z]' $src)
say 7 "chains of if kind == NUMBER that choose what to run (test programs)" < <(grep -nE 'if (kind|letter|c\.letter) == ' crates/test_*/src/*.rt)
say 7 "chains of if TAG == NUMBER that choose how words are read" < <(grep -nE 'if (kind|tag|row\[0\]|w\[0\]) == ' $src | grep -v crates/test_)
say 7 "closures, impl Fn and dyn in use" < <(grep -nE 'impl Fn|dyn |\|[a-z_, ]*\| ' $src)
# 8
say 8 "files Answers.antt" < <(git ls-files 'crates/*/proofs/*Answers.antt')
printf '8\t%5d  lines in them\n' "$(git ls-files 'crates/*/proofs/*Answers.antt' | xargs cat | wc -l)"
printf '8\t%5d  answers in them\n' "$(git ls-files 'crates/*/proofs/*Answers.antt' | xargs grep -hE '^pub ' | wc -l)"
printf '8\t%5d  files Invariants.antt, %d lines\n' "$(git ls-files 'crates/*/proofs/*Invariants.antt' | wc -l)" "$(git ls-files 'crates/*/proofs/*Invariants.antt' | xargs cat | wc -l)"
printf '8\t%5d  other proof files, %d lines\n' "$(git ls-files 'crates/*/proofs/*.antt' | grep -vE '(Answers|Invariants).antt' | wc -l)" "$(git ls-files 'crates/*/proofs/*.antt' | grep -vE '(Answers|Invariants).antt' | xargs cat | wc -l)"
