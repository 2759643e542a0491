# The commands whose writes the logs of this folder have. They were recorded by
#
#     truncate -s 1M base.img
#     crashbpf-record --base base.img recorded -- sh write.sh
D=$FILES/base.img
PBKDF="--batch-mode --disable-locks --pbkdf pbkdf2 --pbkdf-force-iterations 1000"
printf one >"$RECORDING/one"
printf two >"$RECORDING/two"
cryptsetup luksFormat $PBKDF --type luks2 --key-size 128 --cipher aes-cbc-essiv:sha256 --luks2-keyslots-size 384k --key-slot 0 "$D" "$RECORDING/one" &&
	mark formatted
cryptsetup luksAddKey $PBKDF --key-file "$RECORDING/one" "$D" "$RECORDING/two" && mark added
