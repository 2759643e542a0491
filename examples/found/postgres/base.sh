# A cluster with a table of one row. PostgreSQL isn't run by root, which is nobody in a namespace of its own.
export PATH="$PATH:/usr/lib/postgresql/15/bin"
unshare --user initdb -N -D data -A trust -E UTF8 --locale=C --wal-segsize=1 >/dev/null 2>&1
printf '%s\n' 'CREATE TABLE t (key int PRIMARY KEY)' 'INSERT INTO t VALUES (0)' | unshare --user postgres --single -D data postgres >/dev/null
