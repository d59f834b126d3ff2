# Answers --help by the head of the script that reads this, and ends. Read before anything is done.
case ${1-} in
--help | -h)
    sed -n '2,${ /^#/!q; s/^# \{0,1\}//; p; }' "$0"
    exit 0
    ;;
esac
