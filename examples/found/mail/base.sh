# An empty Maildir.
mkdir -p box/tmp box/new box/cur
