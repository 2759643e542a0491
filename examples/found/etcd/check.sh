# Whether the server comes up, has what was acknowledged or what came after it, and takes one more.
data=$PWD/data
. "${0%/*}/server.sh"
ended() {
    end
    exit $1
}
until found=$(ask get --print-value-only key); do
    kill -0 $! 2>/dev/null || { tail -n 3 log; ended 2; }
    sleep 0.1
done
ask put key more >/dev/null && [ "$(ask get --print-value-only key)" = more ] || ended 4
[ "${found:-0}" -ge "$CRASH_MARKS" ] || ended 1
end
