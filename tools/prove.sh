#!/bin/sh
# prove.sh [NAME..] : `rt check` of the named crates and what they stand on, or of all, in the order of crates.txt (callees
# first), with a line for each crate: which, how many of how many, its seconds, and the minutes so far. What rt says in
# full stands in target/prove.log, the seconds in target/prove.times. Run at the top of the repository.
set -u
wanted=$(WANTED="$*" awk '
    function reach(n,    a, k, m) {
        if (n in seen || !(n in deps)) return
        seen[n] = 1
        m = split(deps[n], a, " ")
        for (k = 1; k <= m; k++) reach(a[k])
    }
    { sub(/#.*/, ""); i = index($0, ":"); if (!i) next }
    { split($0, head, /[ :]/); name = head[1]; deps[name] = substr($0, i + 1); order[++count] = name }
    END {
        w = split(ENVIRON["WANTED"], want, " ")
        for (k = 1; k <= w; k++) {
            if (!(want[k] in deps)) { print "prove.sh: " want[k] " is not in crates.txt" > "/dev/stderr"; exit 2 }
            reach(want[k])
        }
        for (k = 1; k <= count; k++) if (w == 0 || order[k] in seen) print order[k]
    }' crates.txt) || exit
all=$(echo "$wanted" | wc -l)
mkdir -p target
: > target/prove.log
: > target/prove.times
began=$(date +%s) done=0
for name in $wanted; do
    start=$(date +%s)
    echo "== $name" >> target/prove.log
    if ! (cd "crates/$name" && rt check) >> target/prove.log 2>&1; then
        tail -n 20 target/prove.log
        echo "$name is not proved; what rt said stands in target/prove.log"
        exit 1
    fi
    now=$(date +%s) done=$((done + 1))
    echo "$name $((now - start))" >> target/prove.times
    so_far=$(printf '%d min %02d s so far' $(((now - began) / 60)) $(((now - began) % 60)))
    echo "proved $done of $all: $name, $((now - start)) s ($so_far)"
done
