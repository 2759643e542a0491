# Mounts the file system that stands on the device, and replaces a file three times as programs do it: a new file, a flush, a
# rename, and a flush of the folder, after which the new file is there for good. A mark stands after each. For `guest` with
# BASE, so that the log has the use alone.
mount $DEVICE /mnt || exit 1
for it in 1 2 3; do
	yes "version $it" | head -c $((1000 * it)) >/mnt/new
	sync /mnt/new && mv /mnt/new /mnt/file && sync /mnt && mark version-$it || exit 1
done
umount /mnt
