# Makes two commits, a checkpoint between them, and a checkpoint at the end, by a server of one session. The words are its options. It
# prompts for the next statement when it has made one.
room=$(mktemp -d) && mkfifo "$room/in" && : >"$room/out" && PATH="$PATH:/usr/lib/postgresql/15/bin"
unshare --user postgres --single -D "$FILES/data" "$@" postgres <"$room/in" >"$room/out" &
exec 3>"$room/in"
answered() {
    until [ "$(grep -o 'backend>' "$room/out" | wc -l)" -gt "$1" ]; do sleep 0.05; done
}
answered 0 && echo 'INSERT INTO t VALUES (1)' >&3 && answered 1 && mark one
echo CHECKPOINT >&3 && answered 2
echo 'INSERT INTO t VALUES (2)' >&3 && answered 3 && mark two
exec 3>&- && wait && rm -r "$room"
