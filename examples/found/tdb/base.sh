# A tdb with a value, which was put without a transaction.
"${0%/*}/store.py" db.tdb a alone
