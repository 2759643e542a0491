# Whether the cluster comes up, has the rows of the first commits, each that was acknowledged among them, and takes one more. PostgreSQL looks
# for a server that is still there, too: for a process by its number, and for shared memory by the number of the folder's inode. So each server
# has processes and shared memory of its own, as after a start of the machine.
export PATH="$PATH:/usr/lib/postgresql/15/bin"
rows() {
    echo "${1:-SELECT}; SELECT 'has ' || coalesce(string_agg(key::text, ' ' ORDER BY key), '') AS it FROM t" |
        unshare --user --ipc --pid --fork --kill-child postgres --single -j -D data postgres | grep -o 'has [0-9 ]*'
}
chmod 700 data
found=$(rows | sed -n 1p)
case $found in 'has 0') many=0 ;; 'has 0 1') many=1 ;; 'has 0 1 2') many=2 ;; *) exit 2 ;; esac
[ "$many" -ge "$CRASH_MARKS" ] || exit 1
[ "$(rows 'INSERT INTO t VALUES (9)' | sed -n 1p)" = "$found 9" ] || exit 4
