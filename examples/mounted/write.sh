# Mounts the file system that stands on the device, and writes four files, each with a mark after the flush that makes it durable.
# For `guest` of examples/recording, with BASE; check.sh tests the images.
mount $DEVICE /mnt || exit 1
for it in 1 2 3 4; do
	yes "version $it" | head -c $((1000 * it)) >/mnt/file-$it
	sync /mnt/file-$it && mark file-$it || exit 1
done
umount /mnt
