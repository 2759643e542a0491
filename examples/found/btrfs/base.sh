# A Btrfs with a label.
truncate -s 16M disk && mkfs.btrfs -q -M -m single -d single -n 4096 -L OLD disk >/dev/null
