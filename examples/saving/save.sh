# Saves settings three times: writes a new file, and renames it over the old one. Each save is acknowledged by a mark.
# For crashbpf-record. With the word `sync` the file is made durable before the rename, and the rename before the mark.
for it in 1 2 3; do
    yes "version $it" | head -n 200 >"$FILES/new"
    [ "$1" != sync ] || sync "$FILES/new"
    mv "$FILES/new" "$FILES/settings"
    [ "$1" != sync ] || sync "$FILES"
    mark "saved-$it"
done
