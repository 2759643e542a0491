# Overwrites the value, in a transaction.
"${0%/*}/store.py" "$FILES/db.tdb" b && mark put
