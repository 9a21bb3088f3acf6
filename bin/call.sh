# Read by `bin/faustvec`, and by the script that `bin/install` puts in its place, for bash as for dash: `call WORD..` runs the
# program with these words, and chooses how the work is cut where they leave that open. Before it the caller sets `program`, the
# program's path, `here`, the folder of this file, and `explain`, the command that explains a refused program, which need not be there.
# The caller answers nothing itself: what it does not let pass, the program refuses, by its own rules and in their order.
# A run that is accepted costs no other process, but where a word has bytes beyond ASCII, since most of the time that a short program
# takes is that of its callers.

# Where one of the standard descriptors is closed, the next file that is opened would take its place, and an output at descriptor 1
# would get the report after its samples. What is opened here at descriptor 1 takes no report, so the program says that it failed.
{ true 9<&0; } 2>/dev/null || exec 0</dev/null
{ true 9>&1; } 2>/dev/null || exec 1</dev/null
true 9>&2 || exec 2>/dev/null

# keep_option NAME VALUE: keeps an option's value; the words are not of the form where it is unknown, or given again
keep_option() {
  case $1 in
  --controls) [ -z "${controls+given}" ] && controls=$2 ;;
  --bits) [ -z "${bits+given}" ] && bits=$2 ;;
  --frames) [ -z "${frames+given}" ] && frames=$2 ;;
  --rate) [ -z "${rate+given}" ] && rate=$2 ;;
  --block) [ -z "${block+given}" ] && block=$2 ;;
  --vector) [ -z "${vector+given}" ] && vector=$2 ;;
  --workers) [ -z "${workers+given}" ] && workers=$2 ;;
  *) false ;;
  esac || is_of_form=
  options=$((options + 1))
}

# keep_plain WORD: keeps a word that is no option
keep_plain() {
  plain=$((plain + 1))
  case $plain in
  1) first=$1 ;;
  2) second=$1 ;;
  3) third=$1 ;;
  esac
}

# read_words WORD..: keeps the command, the plain words and the options, and in `is_of_form` whether a command has such words
read_words() {
  local word
  command=${1-} plain=0 options=0 is_of_form=yes
  unset first second third controls bits frames rate block vector workers
  [ $# -eq 0 ] || shift
  while [ $# -gt 0 ]; do
    case $1 in
    --)
      shift
      for word; do keep_plain "$word"; done
      break
      ;;
    -*=*) keep_option "${1%%=*}" "${1#*=}" ;;
    -?*)
      if [ $# -eq 1 ]; then
        is_of_form=
      else
        keep_option "$1" "$2"
        shift
      fi
      ;;
    *) keep_plain "$1" ;;
    esac
    shift
  done
  case $command in
  run | au | rack) [ "$plain" -eq 3 ] ;;
  check) [ "$plain-$options" = 1-0 ] ;;
  make) [ "$plain-$options" = 3-0 ] ;;
  *) false ;;
  esac || is_of_form=
}

# is_number WORD LEAST GREATEST: whether the word is a number between these, which is left in `number` without zeros in front
is_number() {
  case $1 in
  '' | *[!0123456789]* | ???????????*) return 1 ;;
  esac
  number=$1
  while :; do
    case $number in
    0?*) number=${number#0} ;;
    *) break ;;
    esac
  done
  [ "$number" -ge "$2" ] && [ "$number" -le "$3" ]
}

# are_numbers: whether the program takes the numbers among a run's options
are_numbers() {
  local length
  is_number "${frames-0}" 0 4294967295 && is_number "${rate-1}" 1 4294967295 && is_number "${workers-1}" 1 16 || return 1
  is_number "${bits-16}" 8 32 && [ $((number % 8)) -eq 0 ] && is_number "${block-512}" 1 4096 || return 1
  length=$number
  [ -z "${vector+given}" ] || { is_number "$vector" 1 "$length" && [ $((number * 64)) -ge "$length" ]; }
}

# are_text WORD..: whether the words are UTF-8, as far as that can be found out
are_text() {
  case $* in
  *[!\ -~]*) ! command -v iconv >/dev/null || printf '%s' "$*" | iconv -f UTF-8 -t UTF-8 >/dev/null 2>&1 ;;
  esac
}

# is_taken WORD..: whether the program takes the words. It refuses others at once, and a program that makes sound where no number of
# frames is given, after it was compiled.
is_taken() {
  [ -n "$is_of_form" ] && are_text "$@" || return 1
  case $command in
  check) return 0 ;;
  make) is_number "$first" 1 64 && is_number "$second" 1 262144 && is_number "$third" 1 16 ;;
  *)
    are_numbers || return 1
    if [ "$second" = - ]; then [ -n "${frames+given}" ]; else [ -z "${frames+given}${rate+given}" ]; fi || return 1
    [ "$third" != "$first" ] && [ "$third" != "$second" ] && [ "${controls+=$controls}" != "=$third" ]
    ;;
  esac
}

# is_output FILE: whether the output is this file, by whatever name
is_output() { [ -f "$1" ] && [ "$1" -ef "$third" ]; }

# find_overlap: keeps in `overlap` what the output is too: the program, the input or the script, which would be emptied before they
# are read, or the file that standard output goes to, where the report would stand over the output's head
find_overlap() {
  overlap=
  if is_output "$first"; then
    overlap=program
  elif [ "$second" != - ] && is_output "$second"; then
    overlap=input
  elif [ -n "${controls+given}" ] && is_output "$controls"; then
    overlap=controls
  elif is_output /dev/stdout; then
    overlap=report
  fi
}

# with_words PROGRAM OPTION..: the program with these options and the words as they were read, one spelling for all
with_words() {
  local called=$1
  shift
  if [ "$command" = check ]; then
    "$called" check -- "$first"
  else
    "$called" "$command" "$@" ${controls+"--controls=$controls"} ${bits+"--bits=$bits"} ${frames+"--frames=$frames"} \
      ${rate+"--rate=$rate"} ${block+"--block=$block"} ${vector+"--vector=$vector"} ${workers+"--workers=$workers"} \
      -- "$first" "$second" "$third"
  fi
}

# is_kept: keeps the text of a program that is a pipe, which can be read once alone, in a file without a name, so that it can be
# explained too where it is refused. Of a text that is too long so much is kept that it still is.
is_kept() {
  local copy
  [ -p "$first" ] && [ -x "$explain" ] && [ ! -e /dev/fd/9 ] || return 1
  case $first in
  "${second-}" | "${controls-}") return 1 ;;
  esac
  copy=$(mktemp 2>/dev/null) || return 1
  exec 9<>"$copy"
  rm -f -- "$copy"
  head -c 1048577 -- "$first" >&9
  first=/dev/fd/9
}

# refuse_overlap: the program compares words by their texts. So here both words become one text, which has the bytes of both, and the
# program refuses it as the same, unless there is a cause that comes first.
refuse_overlap() {
  case $overlap in
  input) third=$second/$third second=$third ;;
  controls) third=$controls/$third controls=$third ;;
  *) third=$first/$third first=$third ;;
  esac
  with_words "$program"
  end_with "$?"
}

# refusal: the line by which the program was refused. An output without a name is never made.
refusal() {
  if [ "$command" = check ] || ! { [ "$second" = - ] || [ -f "$second" ]; }; then
    "$program" check -- "$first"
  else
    third=
    with_words "$program"
  fi
}

# explain_refusal: what `explain` says of the refused program, where it is there and says something
explain_refusal() {
  local line text is_rack=
  [ -f "$first" ] && [ -x "$explain" ] || return
  line=$(refusal)
  case $line in
  'refused 4 '* | 'refused 47 '*) return ;;
  esac
  [ "$command" != rack ] || is_rack=--rack
  text=$("$explain" $is_rack --after "$line" -- "$first" 2>/dev/null) && [ -n "$text" ] && printf '%s\n' "$text" >&2
}

cannot_start() {
  echo "faustvec: $program cannot be started here: it is for Linux on x86-64, with glibc 2.34 or later" >&2
  exit 125
}

# wait_for WORD..: what the words call, and on standard error what is to be said after it: how the program is called, where it refuses
# the words, and on a terminal where it refuses the program
wait_for() {
  "$@"
  end_with "$?"
}

# end_with STATUS
end_with() {
  case $1 in
  2)
    cat "$here/usage.txt" >&2
    [ -z "$note" ] ||
      echo "faustvec: standard output goes to the file OUTPUT, so the report would stand over its head: name another" \
        "file for one of them, or call it as in 'faustvec run p.dsp in.wav /dev/fd/3 3>out.wav'" >&2
    ;;
  3) [ ! -t 2 ] || explain_refusal ;;
  126 | 127) cannot_start ;;
  esac
  exit "$1"
}

# call_on_terminal WORD..: the program with these words, its progress where it makes an output, and what is to be said after it; it
# leaves `make` to the caller
call_on_terminal() {
  case $command in
  run | au | rack)
    . "$here/progress.sh"
    if is_kept; then
      wait_for with_progress "$third" with_words "$program" $shape
    else
      wait_for with_progress "$third" "$program" "$@"
    fi
    ;;
  check) if is_kept; then wait_for with_words "$program"; else wait_for "$program" "$@"; fi ;;
  esac
}

# call WORD..: the program with these words. Where they give neither a block nor a vector, a vector is as long as the block, and
# for several workers both are longer. That changes no sample, and takes less time.
call() {
  note=
  read_words "$@"
  case $is_of_form$command in
  yesrun | yesau | yesrack) find_overlap ;;
  *) overlap= ;;
  esac
  if is_taken "$@"; then
    [ "$overlap" != report ] || note=yes
  elif [ -z "$overlap" ]; then
    wait_for "$program" "$@"
  fi
  [ -z "$overlap" ] || refuse_overlap
  case $command in
  run | au | rack)
    shape=--vector=512
    [ "${workers-1}" -le 1 ] || shape="--block=4096 --vector=1024"
    [ -z "${block+given}${vector+given}" ] || shape=
    shift
    set -- "$command" $shape "$@"
    ;;
  esac
  [ ! -t 2 ] || call_on_terminal "$@"
  exec "$program" "$@"
  cannot_start
}
