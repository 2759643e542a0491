# A FAT with a label.
mkfs.fat -C -n OLD disk 1024 >/dev/null
