# A store with a key. Of its log etcd reserves 64,000,000 bytes, and does so anew where the log is longer than what is in it. A crash may
# leave each size up to that, so this one has 16,384.
data=$PWD/data
. "${0%/*}/server.sh"
until ask put key 0 >/dev/null; do sleep 0.1; done
end
truncate -s 16384 "$data"/member/wal/*.wal
