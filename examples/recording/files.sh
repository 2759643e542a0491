# Makes a file system, and replaces a file three times as programs do it: a new file, a flush, a rename, and a flush of the
# folder, after which the new file is there for good. A mark stands after each. For `guest`.
mkfs.ext4 -q -E nodiscard,lazy_itable_init=0,lazy_journal_init=0 $DEVICE && sync $DEVICE && mark formatted || exit 1
mount -t ext4 $DEVICE /mnt || exit 1
for it in 1 2 3; do
	yes "version $it" | head -c $((1000 * it)) >/mnt/new
	sync /mnt/new && mv /mnt/new /mnt/file && sync /mnt && mark version-$it || exit 1
done
umount /mnt
