# Starts a server of one member, which has its store in the folder $data. `ask` gives it words of etcdctl, and `end` ends it. It is its own
# leader soon, since its times are short.
room=$(mktemp -d) && cd "$room" && export ETCDCTL_API=3
etcd --data-dir "$data" --heartbeat-interval 10 --election-timeout 100 --listen-client-urls unix://it:1 --advertise-client-urls unix://it:1 \
    --listen-peer-urls unix://peer:1 --initial-advertise-peer-urls unix://peer:1 --initial-cluster default=unix://peer:1 2>log &
ask() { etcdctl --endpoints unix://it:1 --dial-timeout 1s --command-timeout 10s "$@" 2>/dev/null; }
end() {
    kill $!
    wait
    rm -r "$room"
}
