# Gives the device another passphrase, or one more. The words are those of cryptsetup.
room=$(mktemp -d) && printf old >"$room/old" && printf new >"$room/new"
cryptsetup "$@" -q --pbkdf pbkdf2 --pbkdf-force-iterations 1000 --key-file "$room/old" "$FILES/disk" "$room/new" && mark changed
rm -r "$room"
