# Whether the file system is whole, and has the old label, or the new one.
btrfs check disk >&2 || exit 2
case $(btrfs filesystem label disk) in
NEW) ;;
OLD) [ "$CRASH_MARKS" = 0 ] ;;
*) exit 3 ;;
esac
