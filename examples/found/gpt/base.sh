# A disk with one partition.
truncate -s 1M disk && sgdisk -a 8 -n 1:64:127 disk >/dev/null
