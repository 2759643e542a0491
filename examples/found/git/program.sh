# Makes a commit, or packs what is there where the word is `gc`.
cd "$FILES" || exit
case $1 in
gc) git gc --quiet --prune=now ;;
*) echo two >text && git add text && git commit -qm two && mark two ;;
esac
