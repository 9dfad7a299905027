#!/bin/bash
# Runs smbtorture's subtests on a server: tools/torture.sh PROGRAM serve [NAME ..], PROGRAM by its whole path. Without names it runs those of
# tools/torture-list.txt, which has what is expected of each. Each meets a new server, in a new folder. It wants Debian's samba-testsuite
# (4.17). A line is printed for each, by what came: `ok NAME`, `fails NAME: REASON` where the list says so, else `FAILED NAME: WHY`, WHY being
# smbtorture's words, or `PASSES NAME`, where the list expects a failure. The status is 0 where all came as expected.
# PORT is the first of the ports that it takes, JOBS how many run at once, LIMIT how many seconds a subtest may take, SETTINGS what the server
# is told beside its user (`cipher none`: some subtests speak of a session that is gone, which a sealed frame can't), LIST another list; with
# WHY=1 smbtorture's words stand behind each reason too.
top=$(cd "$(dirname "$0")/.." && pwd)
port=${PORT:-4600}; jobs=${JOBS:-$(nproc)}; limit=${LIMIT:-900}; list=${LIST:-$top/tools/torture-list.txt}
[ $# -gt 1 ] && [ "$1" != --help ] || { echo "usage: tools/torture.sh PROGRAM serve [NAME ..]" >&2; exit 2; }
command -v smbtorture > /dev/null || { echo "smbtorture is missing (Debian's samba-testsuite): nothing was tried" >&2; exit 2; }
program=("$1" "$2"); shift 2
room=$(mktemp -d) || exit 2
trap 'kill -9 $(cat "$room"/*/pid 2>/dev/null) 2>/dev/null; rm -rf "$room"' EXIT
cd "$room" || exit 2

listens() { (: < "/dev/tcp/127.0.0.1/$1") 2>/dev/null; }

# tried NUMBER NAME DUE REASON: prints what came of a subtest, and leaves in NUMBER/came whether it was as expected.
tried() {
  local at=$((port + $1)) server turn said word why
  mkdir "$1" && cd "$1" || exit 2
  printf 'user user Password\npeers 256\n%b\n' "${SETTINGS-cipher none}" > settings
  "${program[@]}" "127.0.0.1:$at" < settings > server 2>&1 & server=$!
  echo $server > pid
  for turn in $(seq 600); do listens $at && break; kill -0 $server 2>/dev/null || break; sleep 0.1; done
  said=$(timeout $((limit + 30)) smbtorture //127.0.0.1/data -p $at -U user%Password --option='client min protocol=SMB3_11' -t 5 \
    --maximum-runtime="$limit" "$2" 2>&1)
  echo "$said" > said
  kill -0 $server 2>/dev/null || echo "error: the server ended: $(tail -n 1 server)" >> said
  kill -9 $server 2>/dev/null; wait $server 2>/dev/null
  rm -f pid smb311.journal
  word=$(grep -aE '^(success|failure|error|skip):' said | tail -n 1)
  case $word in
    success:*) why= ;;
    failure:*) why=$(grep -aA 3 -F "$word" said | grep -av -F "$word" | grep -a . | head -n 1 | tr -s ' \t' ' ') ;;
    *) why=${word:-no result: $(tail -n 1 said)} ;;
  esac
  case $3-$word in
    pass-success:*) echo as > came; echo "ok $2" ;;
    fail-success:*) echo not > came; echo "PASSES $2" ;;
    fail-*) echo as > came; echo "fails $2: $4${WHY:+ [$why]}" ;;
    *) echo not > came; echo "FAILED $2: $why" ;;
  esac
}

names=(); due=(); reasons=()
if [ $# -gt 0 ]; then
  for name in "$@"; do names+=("$name"); due+=(pass); reasons+=(""); done
else
  while IFS=$'\t' read -r word name reason; do
    case $word in pass|fail) names+=("$name"); due+=("$word"); reasons+=("$reason") ;; esac
  done < "$list"
fi
for at in "${!names[@]}"; do
  while [ "$(jobs -rp | wc -l)" -ge "$jobs" ]; do wait -n; done
  (tried "$at" "${names[$at]}" "${due[$at]}" "${reasons[$at]}") &
done
wait
for word in pass fail; do
  all=0; as=0
  for at in "${!names[@]}"; do
    [ "${due[$at]}" = $word ] || continue
    all=$((all + 1)); [ "$(cat "$at/came")" = as ] && as=$((as + 1))
  done
  [ $word = pass ] && text="$as of $all passed as expected" || text="$text, $as of $all failed as expected"
done
echo "$text"
! grep -qx not ./*/came
