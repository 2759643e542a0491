# An ext4 of more than one group, with files.
mkdir ../in && for it in 1 2 3 4; do mkdir ../in/$it && seq $it 2000 >../in/$it/file; done
mke2fs -q -t ext4 -b 1024 -g 256 -N 128 -O ^resize_inode,^has_journal -d ../in disk 1M
[ -z "$1" ] || truncate -s "$1" disk
rm -r ../in
