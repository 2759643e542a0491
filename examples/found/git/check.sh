# Whether the repository is whole, and has each commit that was acknowledged.
git fsck --full >&2 || exit 2
[ "$(git rev-list --count HEAD)" -gt "$CRASH_MARKS" ]
