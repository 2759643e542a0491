# Puts a key three times, by a server of its own.
data=$FILES/data
. "${0%/*}/server.sh"
put() { ask put key "$1" >/dev/null; }
until put 1; do sleep 0.1; done
mark put-1 && put 2 && mark put-2 && put 3 && mark put-3
end
