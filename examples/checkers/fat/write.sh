# The commands whose writes the logs of this folder have. They were recorded by
#
#     mkfs.vfat -C -F 16 -s 1 -r 64 -i 1a2b3c4d --invariant small.img 2200
#     crashbpf-record --base small.img recorded -- sh write.sh
yes one | head -c 1300 >"$RECORDING/one"
yes two | head -c 2000 >"$RECORDING/two"
yes three | head -c 900 >"$RECORDING/three"
export MTOOLS_SKIP_CHECK=1
D=$FILES/small.img
mcopy -m -i $D "$RECORDING/one" ::one.txt && mark 1
mmd -i $D ::d && mark 2
mcopy -m -i $D "$RECORDING/two" "::d/a long name.txt" && mark 3
mdel -i $D ::one.txt && mark 4
mcopy -m -i $D "$RECORDING/three" ::three.txt && mark 5
