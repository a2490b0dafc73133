# Run as `sh -f mailer.sh WORD ..`, so that the sender is this file and the recipients are its words.
case $1 in
  status) exit "$2" ;;
  bytes) [ "$(wc -c)" -eq "$2" ] ;;
  words) [ "$*" = 'words a@b c d' ] ;;
  nameless) [ ! -e handing ] ;;
  prints) echo this is dropped ;;
  dies) kill -9 $$ ;;
  sleeps) exec sleep 20 ;;
esac
