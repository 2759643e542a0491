# What the guest did whose writes the logs of this folder have. They were recorded by
#
#     mke2fs -t ext4 -b 1024 -N 64 -E nodiscard base.img 2048
#     BASE=base.img examples/recording/guest kernel 4096 recorded write.sh
mount $DEVICE /mnt || exit 1
mkdir /mnt/d && echo one >/mnt/d/a && sync /mnt/d/a && sync /mnt/d && mark 1 || exit 1
yes two | head -c 3000 >/mnt/new && sync /mnt/new && mv /mnt/new /mnt/d/a && sync /mnt/d && mark 2 || exit 1
rm -r /mnt/d && yes three | head -c 2000 >/mnt/f && sync /mnt/f && sync /mnt && mark 3 || exit 1
umount /mnt
