# A repository with one commit. The word, where there is one, is the setting of core.fsync.
git init -q . && git config user.name it && git config user.email it@it && git config gc.auto 0
[ -z "$1" ] || git config core.fsync "$1"
echo one >text && git add text && git commit -qm one
