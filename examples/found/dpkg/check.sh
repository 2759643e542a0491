# Whether dpkg can read its state, a package that it calls installed has its file, and what was acknowledged is installed.
said=$(dpkg-query --admindir=var/lib/dpkg -W -f '${Status}' it 2>/dev/null)
dpkg --root=. --audit >&2 2>&1 || exit 2
[ "$said" != "install ok installed" ] || [ "$(cat usr/file)" = content ] || exit 3
[ "$CRASH_MARKS" = 0 ] || [ "$said" = "install ok installed" ]
