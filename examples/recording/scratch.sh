# Formats the device, which may be large, mounts it, and works on it as tests of file systems do on their scratch device: files of
# many sizes in several folders, of which some are synced, renamed, cut off and removed. A mark stands after each round, by which
# all that was synced in it is promised. For `guest`, with COMMANDS="mkfs.xfs", "mkfs.btrfs" or "mkfs.f2fs"; else it is an ext4.
if command -v mkfs.xfs; then
	kind=xfs options=noatime make='mkfs.xfs -q -f -K'
elif command -v mkfs.btrfs; then
	kind=btrfs options=noatime make='mkfs.btrfs -q -f -K'
elif command -v mkfs.f2fs; then
	kind=f2fs options=nodiscard make='mkfs.f2fs -q -f -t 0'
else
	kind=ext4 options=noatime make='mkfs.ext4 -q -E nodiscard,lazy_itable_init=0,lazy_journal_init=0'
fi
$make $DEVICE && sync $DEVICE && mark formatted && mount -t $kind -o $options $DEVICE /mnt || exit 1

for round in 1 2 3 4 5 6; do
	mkdir -p /mnt/$round/below || exit 1
	for size in 1 700 4096 20000 150000 600000; do
		yes "round $round, $size" | head -c $size >/mnt/$round/$size && cp /mnt/$round/$size /mnt/$round/below/$size || exit 1
	done
	sync /mnt/$round/4096 && sync /mnt/$round/below/600000 && sync /mnt/$round/below && sync /mnt/$round || exit 1
	yes "version $round" | head -c 3000 >/mnt/new && sync /mnt/new && mv /mnt/new /mnt/kept && sync /mnt && mark round-$round || exit 1
	truncate -s 1000 /mnt/$round/20000 && mv /mnt/$round/below/150000 /mnt/$round/moved || exit 1
	[ $round = 1 ] || rm -r /mnt/$((round - 1))/below || exit 1
done
umount /mnt
