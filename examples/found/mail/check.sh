# Whether each message is whole, and there is one where it was acknowledged.
for it in box/new/* box/cur/*; do
    [ ! -e "$it" ] || grep -q '^content$' "$it" || exit 2
done
[ "$CRASH_MARKS" = 0 ] || [ -n "$(find box/new box/cur -type f)" ]
