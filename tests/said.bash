# What tests/programs and tests/targets have in common, from the repository's root: a folder for what they make, and `said`.
set -euo pipefail
# As in a shell of its own, also where make test started it.
unset MAKEFLAGS MFLAGS MAKELEVEL CHAIN TEXT STEPS SHARES COPIES LOSS REBUILD FINISH OUT
export LC_ALL=C

trap 'echo "$(basename "$0"): line $LINENO does not hold"' ERR

root=$PWD
test=$(basename "$0")
box=$root/target/second/$test
rm -rf "$box"
mkdir -p "$box"

# said STATUS STDOUT STDERR COMMAND ..: runs a command and holds it to its status and to what it writes, make's own lines apart. * is anything but
# nothing.
said() {
  local status=$1 out=$2 err=$3 came=0
  shift 3
  "$@" >"$box/stdout" 2>"$box/stderr" || came=$?
  sed -i '/^make: /d' "$box/stderr"
  [ "$status" = "$came" ] || wrong "status $came, not $status" "$*"
  same "$out" stdout "$*"
  same "$err" stderr "$*"
}

same() {
  if [ "$1" = '*' ]; then
    [ -s "$box/$2" ] || wrong "nothing on $2" "$3"
  else
    printf %s "$1" | cmp - "$box/$2" || wrong "another $2: $(head -c 300 "$box/$2")" "$3"
  fi
}

wrong() {
  echo "$test: $2: $1"
  exit 1
}

# What a command is given, and what it cannot write to.
with() { "${@:2}" <"$1"; }
full() { "$@" >/dev/full; }
shut() { "$@" >&-; }
closed() { "$@" <&-; }
