# Reads the settings that save.sh saved, as a program does that starts again after a power cut. For crashbpf-files.
#
#   1   a save that was acknowledged is gone
#   2   the settings are empty, or cut off
[ -e settings ] || exit $((CRASH_MARKS > 0))
it=$(head -n 1 settings | tr -dc 0-9)
yes "version $it" | head -n 200 | cmp -s - settings || exit 2
[ "$it" -ge "$CRASH_MARKS" ] || exit 1
