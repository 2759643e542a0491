# Whether e2fsck makes the file system whole, with a backup of the super block where the first one is broken, and each file is at its name.
e2fsck -fy disk >&2
[ $? -lt 4 ] || e2fsck -fy -b 257 -B 1024 disk >&2
[ $? -lt 4 ] || exit 2
for it in 1 2 3 4; do
    seq $it 2000 >../wanted
    debugfs -R "cat /$it/file" disk 2>/dev/null | cmp -s - ../wanted || exit 3
done
