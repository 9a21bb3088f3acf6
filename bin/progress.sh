# Read by `bin/call.sh`, where standard error is a terminal, for bash as for dash: `with_progress OUTPUT PROGRAM WORD..` runs the
# program with these words, and after one second and each further one shows which share of the output is written and how long the
# rest will take, if it goes on so. The line is no longer than the shortest line that the program ends with, which so covers it,
# and is cleared at the end. The status is the program's; where it is interrupted, 130.

# whole_size FILE: the bytes that a WAV or an AU file has when it is whole, by its head
whole_size() {
  set -- $(od -An -v -tu1 -w12 -N12 -- "$1")
  [ $# -eq 12 ] || return 1
  case $1 in
  82) echo $(($5 + 256 * ($6 + 256 * ($7 + 256 * $8)) + 8)) ;;
  46) echo $((24 + ${12} + 256 * (${11} + 256 * (${10} + 256 * $9)))) ;;
  *) return 1 ;;
  esac
}

# show_progress FILE: until it is ended, by SIGTERM
show_progress() {
  local seconds=0 is_shown= sleeper= size all left
  trap '' INT
  trap '[ -z "$is_shown" ] || printf "\r\033[K" >&3; kill $sleeper; exit' TERM
  while :; do
    # A wait, and not the sleep, is what the signal ends at once.
    sleep 1 &
    sleeper=$!
    wait "$sleeper"
    seconds=$((seconds + 1))
    [ -f "$1" ] && all=$(whole_size "$1") && size=$(stat -c %s -- "$1") && [ "$size" -gt 44 ] || continue
    left=$(((all - size) * seconds / size))
    is_shown=yes
    printf '\r%3d %% %d:%02d:%02d\033[K\r' $((size * 100 / all)) $((left / 3600)) $((left / 60 % 60)) $((left % 60)) >&3
  done
}

with_progress() {
  local watcher status
  trap : INT
  show_progress "$1" </dev/null >/dev/null 3>&2 2>/dev/null &
  watcher=$!
  shift
  "$@"
  status=$?
  kill "$watcher" 2>/dev/null
  wait "$watcher" 2>/dev/null
  return "$status"
}
