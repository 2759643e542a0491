# Delivers a message to a Maildir, by the program that the word names. Mutt keeps a copy there of what it sends.
room=$(mktemp -d) && export HOME="$room"
case $1 in
maildrop) echo "to \"$FILES/box\"" >"$room/rules" && chmod 600 "$room/rules" && printf 'Subject: it\n\ncontent\n' | maildrop "$room/rules" ;;
procmail) echo "DEFAULT=$FILES/box/" >"$room/rules" && printf 'Subject: it\n\ncontent\n' | procmail -m "$room/rules" ;;
python) /usr/bin/python3 -c "import mailbox, os; mailbox.Maildir(os.environ['FILES'] + '/box').add('Subject: it\n\ncontent\n')" ;;
mutt) echo content | mutt -n -F /dev/null -e "set sendmail=/bin/true record=$FILES/box copy=yes mbox_type=Maildir tmpdir=$room" -s it it@localhost ;;
esac && mark delivered
rm -r "$room"
