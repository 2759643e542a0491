# Changes the label.
btrfs filesystem label "$FILES/disk" NEW && mark changed
