# Installs a package of one file. The word is an option of dpkg, which a file of /etc/dpkg may set too.
room=$(mktemp -d) && mkdir -p "$room/it/DEBIAN" "$room/it/usr" && echo content >"$room/it/usr/file"
printf 'Package: it\nVersion: 1\nArchitecture: all\nMaintainer: it\nDescription: it\n' >"$room/it/DEBIAN/control"
dpkg-deb --root-owner-group -b "$room/it" "$room/it.deb" >/dev/null
dpkg --root="$FILES" --force-not-root --force-script-chrootless --log="$room/log" $1 -i "$room/it.deb" >/dev/null && mark installed
rm -r "$room"
