# Whether the text is the old one or the new one, whole, and the new one where that was acknowledged. A backup of the old one will do before.
said=$(cat text)
[ "$said" = two ] && exit
[ "$said" = one ] || [ "$(cat text~)" = one ] || exit 2
[ "$CRASH_MARKS" = 0 ]
