# The command whose writes the logs of this folder have. It was recorded by
#
#     truncate -s 16M base.img
#     crashbpf-record --base base.img recorded -- sh write.sh
mkfs.xfs -q --unsupported -b size=1024 -d agcount=1 "$FILES/base.img" && mark made
