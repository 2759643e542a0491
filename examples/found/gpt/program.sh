# Adds a partition, by the tool that the word names.
case $1 in
sgdisk) sgdisk -a 8 -n 2:256:319 "$FILES/disk" >/dev/null ;;
sfdisk) echo 'start=256, size=64' | sfdisk -q --append "$FILES/disk" >/dev/null ;;
esac && mark added
