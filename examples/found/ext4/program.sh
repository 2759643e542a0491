# Runs a tool of e2fsprogs on the unmounted file system.
"$@" "$FILES/disk" && mark done
