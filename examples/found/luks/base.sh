# A LUKS2 device with a passphrase.
printf old >../old && printf new >../new && truncate -s 1M disk
cryptsetup luksFormat -q --type luks2 --luks2-metadata-size 16k --luks2-keyslots-size 544k --offset 1160 \
    -s 256 --pbkdf pbkdf2 --pbkdf-force-iterations 1000 disk ../old
