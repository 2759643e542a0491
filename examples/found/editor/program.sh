# Changes the text and saves it, by the editor that the word names. Two of them keep no backup of files in folders for temporary ones, as
# this one may be, unless they are told. Emacs syncs in batch mode where it is told to, as it does without that in other modes.
cd "$FILES" && export HOME=/nonexistent
case $1 in
vim) vim --cmd 'set backupskip=' -u NONE -N -es -c '%s/one/two/' -c wq text ;;
vim-n) vim -n --cmd 'set backupskip=' -u NONE -N -es -c '%s/one/two/' -c wq text ;;
nano)
    room=$(mktemp -d) && mkfifo "$room/keys" && : >"$room/said"
    TERM=xterm script -qefc 'nano -I text' "$room/said" <"$room/keys" >/dev/null &
    exec 3>"$room/keys"
    until grep -q nano "$room/said"; do sleep 0.1; done
    sleep 0.2 && printf '\013two\n\017\r\030' >&3 && wait $!
    ;;
emacs) emacs -Q --batch text --eval '(progn (setq temporary-file-directory "/nonexistent/" write-region-inhibit-fsync nil) (erase-buffer) (insert "two\n") (save-buffer))' 2>/dev/null ;;
ed) printf '%s\n' s/one/two/ w q | ed -s text ;;
sed) sed -i s/one/two/ text ;;
esac && mark saved
