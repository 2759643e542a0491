# Mounts an image of what write.sh did, and looks for each file that was acknowledged. For `mounted`.
mount $DEVICE /mnt || exit 1
status=0
for it in 1 2 3 4; do
	[ $it -le $MARKS ] || break
	yes "version $it" | head -c $((1000 * it)) | cmp - /mnt/file-$it || { echo "mark $it promised file-$it"; status=2; }
done
umount /mnt || exit 3
exit $status
