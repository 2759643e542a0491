# Whether a passphrase opens the device, and the new one where that was acknowledged.
opens() { printf $1 | cryptsetup open --test-passphrase --key-file - disk; }
opens new && exit
opens old || exit 2
[ "$CRASH_MARKS" = 0 ]
