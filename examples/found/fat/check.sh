# Whether the file system is whole, and has the old label, or the new one.
fsck.fat -n disk >&2 || exit 2
case $(fatlabel disk) in
NEW) ;;
OLD) [ "$CRASH_MARKS" = 0 ] ;;
*) exit 3 ;;
esac
