#!/bin/sh
# Runs kk: the program at hand, boot/kk, where it was built from these sources, or else one that is built here first. Ends with
# the program's status, or with 70 and the reason on standard error where no such program can be had. `./kk --help` has more.
# This is the quick start, where an earlier one has found the program; boot/start does all else.
set -u
self=$0
[ ! -L "$self" ] || self=$(readlink -f -- "$self") || exit 70
case $self in
  /*) ;;
  */*) self=$PWD/${self#./} ;;
  *) self=$PWD/$self ;;
esac
top=${self%/*}
if ! [ -r "$top/boot/sums" ] || ! [ -x "$top/boot/start" ]; then
  echo "kk: $top/boot isn't whole" >&2
  exit 70
fi
. "$top/boot/sums"
# Where a start notes the program that it found, with the names and the states of all that it was found by. It is empty where
# there is no place for notes.
notes=${XDG_CACHE_HOME:-${HOME:+$HOME/.cache}}
notes=${notes:+$notes/kk$top}

# Tells whether what a part of the notes names is still in its state.
is_as_noted() {
  states < "$notes/names-$1" | cmp -s - "$notes/states-$1"
}

# Takes the program that an earlier start found, and tells whether it and the sources are still in the state of then. Both parts
# of the notes are looked at at once.
is_remembered() {
  [ -n "$notes" ] && [ -r "$notes/names-1" ] && read -r program < "$notes/names-1" || return
  is_as_noted 1 &
  first=$!
  is_as_noted 2
  second=$?
  wait "$first" && [ "$second" = 0 ]
}

case ${1-} in
  --build | --install | --help | -h | help | --version) ;;
  *) if is_remembered; then exec "$top/$program" "$@"; fi ;;
esac
exec "$top/boot/start" "$top" "$notes" "$@"
