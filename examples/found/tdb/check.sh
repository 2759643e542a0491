# Whether the store can be opened, has the old value or the new one, whole, the new one where it was acknowledged, and takes one more.
store=${0%/*}/store.py
found=$("$store" db.tdb) || exit 2
case $found in a) [ "$CRASH_MARKS" = 0 ] || exit 1 ;; b) ;; *) exit 3 ;; esac
"$store" db.tdb c && [ "$("$store" db.tdb)" = c ] || exit 4
