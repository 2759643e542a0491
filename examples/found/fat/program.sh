# Changes the label.
fatlabel "$FILES/disk" NEW && mark changed
