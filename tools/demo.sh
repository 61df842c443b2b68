#!/bin/sh
# From the season's sheet to a page, then the sheet sorted by its notes. Run at the top of the repository, when the program
# crates/phrases/out/phrases is built (`make demo` does).
set -eu
tool=crates/phrases/out/phrases
out=target/demo
mkdir -p "$out"
run() {
    echo "\$ phrases $*"
    "$tool" "$@"
}
run sheet season/sheet.tsv "$out/season.phr"
run check "$out/season.phr"
run count "$out/season.phr" season/messages/full.txt
run count "$out/season.phr" season/messages/over.txt
run fits "$out/season.phr" season/messages/over.txt 1
run encode "$out/season.phr" season/messages/short.txt
run show "$out/season.phr" season/messages/over.txt "$out/over.html"
echo "\$ sort by the notes column, as before the lost exercise"
LC_ALL=C sort -t "$(printf '\t')" -k2 season/sheet.tsv > "$out/sorted.tsv"
run sheet "$out/sorted.tsv" "$out/sorted.phr"
run check "$out/sorted.phr"
