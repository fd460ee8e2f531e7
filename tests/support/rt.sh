#!/bin/sh
# In the place of the command rt: notes its calls, says what comes through a pipe of the crate's name, if there is one,
# and makes the program of a level, which ends in the level's name and a sum of the sources, if it isn't there.
[ "$1" != version ] || exec echo 'a kit'
echo "${PWD##*/} $*" >>"$RT_NOTES"
echo "rt says: $*"
[ ! -p "${RT_PIPES-}/${PWD##*/}" ] || cat "$RT_PIPES/${PWD##*/}"
case ${RT_FAILS-none} in "$1 ${PWD##*/}" | "$2") echo 'rt: this is why'; exit 1 ;; esac
[ -z "${RT_EDITS-}" ] || { sleep 0.05; echo edited >>"$RT_EDITS"; }
mkdir -p out
[ "$1" = run ] || { : >out/made && exit; }
sum=$({ sort ../../crates.txt | grep -v example && find ../../crates -name '*.antt' | sort | xargs cat; } | cksum)
if [ "$2" = --cpu ]; then
    rm -f out/digests_main.stamp
    { cat "$RT_FAST"; echo "$3 of $sum"; } >out/digests_main
elif ! [ -e out/digests_main ] || [ "$sum" != "$(cat out/digests_main.stamp 2>/dev/null)" ]; then
    { cat "$RT_PROGRAM"; echo "default of $sum"; } >out/digests_main
    printf %s "$sum" >out/digests_main.stamp
fi
chmod 755 out/digests_main
exec out/digests_main sha256sum
