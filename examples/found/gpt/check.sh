# Whether the disk has its old partition, and the new one where that was acknowledged. sfdisk takes a copy of the table whose checksums are
# right, as a kernel does.
sfdisk -d disk >said 2>&1
grep -q 'start= *64, size= *64,' said || exit 2
[ "$CRASH_MARKS" = 0 ] || grep -q 'start= *256, size= *64,' said
