# The commands whose writes the logs of this folder have. They were recorded by
#
#     truncate -s 16M base.img
#     mkfs.btrfs -M -U 0b5e0000-0000-4000-8000-000000000001 -L zero base.img
#     crashbpf-record --base base.img recorded -- sh write.sh
D=$FILES/base.img
btrfs filesystem label "$D" one && mark 1
btrfstune -m "$D" && mark 2
btrfs check --clear-space-cache v2 "$D" && mark 3
