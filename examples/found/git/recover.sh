# What a user does after a power cut: takes away what was locked, runs a command of git's, and looks whether all is there. The word is the
# command: `fsck` looks only, `gc`, `repack` and `reset` write.
find .git -name '*.lock' -delete
case $1 in
gc) git gc --quiet --prune=now >&2 || exit 3 ;;
repack) git repack -a -d -q >&2 || exit 3 ;;
reset) git reset -q --hard >&2 || exit 3 ;;
esac
exec sh "$(dirname "$0")/check.sh"
