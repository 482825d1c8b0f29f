#!/usr/bin/env bash
# Prints the figures of MEASURED of one built program: figures.sh PROGRAM. For each run it has the instructions, by
# valgrind's callgrind, and the largest memory in kB. It works in a new folder of the temporary files, and leaves there
# what callgrind wrote, for callgrind_annotate.
set -eu
here=$(realpath "$(dirname "$0")")
program=$(realpath "$1")
folder=$(mktemp -d)
cd "$folder"
bash "$here/make_scripts.sh"
bash "$here/make_thread_scripts.sh"
cp "$here/../../examples/names.txt" names
"$program" mkfs large 16384 1024 1024 4096 > /dev/null
"$program" mkfs threads 4096 256 64 64 > /dev/null

count() {
    name=$1
    shift
    counted=$(valgrind --tool=callgrind --callgrind-out-file="$name.callgrind" "$@" 2>&1 > /dev/null | sed -n 's/.*Collected : //p')
    memory=$(/usr/bin/time -f %M "$@" 2>&1 > /dev/null | tail -n 1)
    printf '%-14s %13s %8s kB\n' "$name" "$counted" "$memory"
}

count mkdirs "$program" step - mkdirs strict
count calls "$program" step large calls strict
count tree "$program" tree large
count mkfs "$program" mkfs made 16384 1024 1024 4096
count names "$program" step - names strict
count tree_fresh "$program" tree -
count one_thread "$program" step threads one strict
count eight_threads "$program" step threads eight strict
echo "$folder"
