# The commands whose writes the logs of this folder have. They were recorded by
#
#     truncate -s 1M base.img
#     sgdisk -o -a 1 -n 1:64:1023 -c 1:one base.img
#     crashbpf-record --base base.img recorded -- sh write.sh
D=$FILES/base.img
sgdisk -a 1 -n 2:1024:1535 -c 2:two "$D" && mark 1
sgdisk -d 1 "$D" && mark 2
