#!/bin/bash
# Tries real clients on a server: tools/clients.sh PROGRAM serve, PROGRAM by its whole path. It is begun as PROGRAM serve ADDR with its
# settings on standard input, in a new folder. One line a check, and a count at the end; the status is 0 where none failed.
# It wants Debian's smbclient and samba (4.17), python3-impacket (0.10), python3-smbc (1.0) and rclone (1.60); what is missing is said, and its
# checks are left out.
# The checks of NTLM without SPNEGO, as Linux's kernel sends it, and of marks over a start want Python's package cryptography.
# SIZES (bytes of the files that are put and got) and PORT may be given; LIMIT is how many seconds a client may take.
top=$(cd "$(dirname "$0")/.." && pwd)
sizes=${SIZES:-0 1 65536 1048577 50000000}; port=${PORT:-4450}; limit=${LIMIT:-600}
[ $# -gt 0 ] && [ "$1" != --help ] || { echo "usage: tools/clients.sh PROGRAM serve" >&2; exit 2; }
program=("$@"); room=$(mktemp -d) || exit 2
well=0; failed=0; server=; address=127.0.0.1:$port
whole=50000000; part=5000000; size=0  # a put that is cut, and how many bytes of it are in the journal then

finish() { [ -n "$server" ] && kill -9 "$server" 2>/dev/null; rm -rf "$room"; }
trap finish EXIT

ok() { well=$((well + 1)); echo "ok $1"; }
bad() { failed=$((failed + 1)); echo "FAILED $1: ${2:-no reason told}"; }

# check NAME COMMAND..: the command ends well.
check() {
  local name=$1 said; shift
  if said=$("$@" 2>&1); then ok "$name"; else bad "$name" "$(echo "$said" | tail -n 1)"; fi
}

# meets NAME TEXT COMMAND..: the command says this.
meets() {
  local name=$1 text=$2 said; shift 2
  said=$("$@" 2>&1)
  if [[ $said == *"$text"* ]]; then ok "$name ($text)"; else bad "$name" "$(echo "$said" | tail -n 1)"; fi
}

# begin FOLDER SETTINGS: a server on the journal of a folder; it is ready when it listens.
begin() {
  mkdir -p "$room/$1"
  cd "$room/$1" || exit 2
  printf '%b' "$2" > settings
  "${program[@]}" "$address" < settings > said 2>&1 &
  server=$!
  cd "$room" || exit 2
  local turn
  for turn in $(seq 600); do
    (: < "/dev/tcp/127.0.0.1/$port") 2>/dev/null && return
    kill -0 "$server" 2>/dev/null || break
    sleep 0.1
  done
  echo "the server didn't begin: $(cat "$room/$1/said")"; exit 2
}

# stop: a kill is a crash, which the journal outlives.
stop() { kill -9 "$server" 2>/dev/null; wait "$server" 2>/dev/null; server=; }

ciphers="AES-128-GCM AES-128-CCM AES-256-GCM AES-256-CCM"; signings="AES-128-GMAC AES-128-CMAC"

smb() { timeout "$limit" smbclient "//127.0.0.1/${SHARE:-data}" -p "$port" -t "$limit" -m SMB3_11 -U "${WHO:-user%Password}" "$@"; }

# What a put and a get of a file give back.
round() {
  smb "${protection[@]}" -c "put $room/f$1 f$1; get f$1 $room/got$1" || return 1
  cmp "$room/f$1" "$room/got$1"
}

# by_one OPTION ALGORITHM: a put, a get and a list of a client that offers this algorithm alone.
by_one() {
  local said
  said=$(smb "${protection[@]}" --option="$1=$2" -c "put $room/f1048577 f$2; get f$2 $room/got; ls; del f$2") || return 1
  [[ $said == *" f$2 "* ]] && cmp "$room/f1048577" "$room/got"
}

names() {
  local said
  said=$(smb "${protection[@]}" -c "mkdir dir; cd dir; put $room/f1 one; rename one two; ls; del two; cd ..; rmdir dir; ls") || return 1
  echo "$said"
  [[ $said != *NT_STATUS* && $said == *" two "* ]]
}

# A new file has ARCHIVE.
archived() { smb "${protection[@]}" -c "put $room/f1 held; ls held" | grep -q '^  held  *A  *1 '; }

# Attributes that were taken away forbid nothing more.
freed() {
  local said
  said=$(smb "${protection[@]}" -c "setmode held -h; put $room/f1 held; del held; ls held" 2>&1)
  echo "$said"
  [[ $said != *ACCESS_DENIED* && $said == *NT_STATUS_NO_SUCH_FILE* ]]
}

two_at_once() {
  (smb "${protection[@]}" -c "put $room/f1048577 left; get left $room/left") & local left=$!
  (smb "${protection[@]}" -c "put $room/f65536 right; get right $room/right") & local right=$!
  wait $left && wait $right && cmp "$room/left" "$room/f1048577" && cmp "$room/right" "$room/f65536"
}

# in_the_middle CLIENT: waits until a part of what the client puts is in the journal, or the client has ended.
in_the_middle() {
  local journal=$room/$folder/smb311.journal had turn
  had=$(stat -c %s "$journal")
  for turn in $(seq 10000); do
    [ "$(stat -c %s "$journal")" -gt $((had + part)) ] && return
    kill -0 "$1" 2>/dev/null || return
    sleep 0.001
  done
}

killed_client() {
  (exec smbclient "//127.0.0.1/data" -p "$port" -t "$limit" -m SMB3_11 -U user%Password "${protection[@]}" -c "put $room/big big") &
  local client=$!
  in_the_middle $client; kill -9 $client 2>/dev/null; wait $client 2>/dev/null
  smb "${protection[@]}" -c "put $room/f1 after; get after $room/after" && cmp "$room/after" "$room/f1"
}

# The file of the put that was cut is absent, or holds a front of what was sent.
is_front() {
  local said
  rm -f "$room/torn"; size=0
  said=$(smb "${protection[@]}" -c "get torn $room/torn" 2>&1)
  [[ $said == *NT_STATUS_OBJECT_NAME_NOT_FOUND* ]] && return
  [ -e "$room/torn" ] || { echo "$said"; return 1; }
  size=$(stat -c %s "$room/torn")
  [ "$size" -le "$whole" ] && cmp -n "$size" "$room/torn" "$room/big"
}

# The server is killed in a put and begun again: a file that was put before is there, and of the one that was cut a front at most.
killed_server() {
  smb "${protection[@]}" -c "put $room/f65536 kept" || return 1
  smb "${protection[@]}" -c "put $room/big torn" & local client=$!
  in_the_middle $client; stop; wait $client
  begin "$folder" "$settings"
  smb "${protection[@]}" -c "get kept $room/kept" && cmp "$room/kept" "$room/f65536" && is_front
}

with_smbclient() {
  local size
  check "smbclient $kind: log on, list" smb "${protection[@]}" -c ls
  for size in $sizes; do check "smbclient $kind: put and get $size bytes" round "$size"; done
  check "smbclient $kind: make, rename, list, delete, remove" names
  # no short names: file class 21 is refused by name
  meets "smbclient $kind: allinfo" NT_STATUS_OBJECT_NAME_NOT_FOUND smb "${protection[@]}" -c "put $room/f1 f1; allinfo f1"
  check "smbclient $kind: a new file" archived
  meets "smbclient $kind: a read-only file, written" NT_STATUS_ACCESS_DENIED smb "${protection[@]}" -c "setmode held +r; put $room/f1 held"
  meets "smbclient $kind: a read-only file, deleted" NT_STATUS_CANNOT_DELETE smb "${protection[@]}" -c "del held"
  meets "smbclient $kind: a hidden file, put anew" NT_STATUS_ACCESS_DENIED smb "${protection[@]}" -c "setmode held -r; setmode held +h; put $room/f1 held"
  check "smbclient $kind: the same without attributes" freed
  meets "smbclient $kind: a directory that isn't empty, removed" NT_STATUS_DIRECTORY_NOT_EMPTY smb "${protection[@]}" -c "mkdir full; put $room/f1 full\\f1; rmdir full"
  meets "smbclient $kind: the same with all below it" NT_STATUS_NO_SUCH_FILE smb "${protection[@]}" -c "deltree full; ls full"
  WHO=user%wrong meets "smbclient $kind: a wrong password" NT_STATUS_LOGON_FAILURE smb "${protection[@]}" -c ls
  WHO=nobody%Password meets "smbclient $kind: an unknown user" NT_STATUS_LOGON_FAILURE smb "${protection[@]}" -c ls
  SHARE=nowhere meets "smbclient $kind: an unknown share" NT_STATUS_BAD_NETWORK_NAME smb "${protection[@]}" -c ls
  WHO=other%Second check "smbclient $kind: a second user" smb "${protection[@]}" -c ls
  check "smbclient $kind: two clients at once" two_at_once
  check "smbclient $kind: a client killed in a put" killed_client
  killed "smbclient $kind: the server killed in a put, and begun again"
}

# The server's process id changes here, so this check runs in no shell of its own.
killed() {
  if killed_server > "$room/said" 2>&1; then ok "$1 ($size of $whole bytes are there)"; else bad "$1" "$(tail -n 1 "$room/said")"; fi
}

# lines_of COMMAND..: what it says of each of its checks.
lines_of() {
  local line
  while IFS= read -r line; do
    case $line in ok\ *) ok "${line#ok }" ;; FAILED\ *) line=${line#FAILED }; bad "${line%: *}" "${line##*: }" ;; esac
  done < <(timeout "$limit" "$@" 2>&1)
}

# with_impacket TOOL KIND: what a script of tools/ says.
with_impacket() { lines_of /usr/bin/python3 "$top/tools/$1" "$port" "$2" user Password data; }

# bare KIND WORD: logons without SPNEGO, which a server takes (any) or refuses (spnego).
bare() { lines_of python3 "$top/tools/bare_client.py" "$port" "$1" "$2" user Password data; }

# restarted KIND: a client marks directories, the server is killed under it and begun again, and the client says what it finds.
restarted() {
  local client turn
  timeout "$limit" python3 "$top/tools/marked_client.py" "$port" "$1" user Password data > "$room/marked" 2>&1 & client=$!
  for turn in $(seq 600); do
    grep -q '^marked$' "$room/marked" && break
    kill -0 $client 2>/dev/null || break
    sleep 0.1
  done
  stop
  begin "$folder" "$settings"
  wait $client
  lines_of cat "$room/marked"
}

# Another client yet, in Go: it copies a folder here and compares the bytes.
with_rclone() {
  local there hidden
  hidden=$(rclone obscure Password)
  there=":smb,host=127.0.0.1,port=$port,user=user,pass=$hidden:data/rclone"
  mkdir -p "$room/some" && cp "$room/f1" "$room/f65536" "$room/f1048577" "$room/some" && : > "$room/some/f0" || exit 2
  there_by() { timeout "$limit" rclone --config /dev/null --retries 1 "$@"; }
  check "rclone $kind: copy a folder" there_by copy "$room/some" "$there"
  check "rclone $kind: read and compare it" there_by check --download "$room/some" "$there"
  rm -f "$room/some/f0" && cp "$room/f1" "$room/some/g1" || exit 2
  check "rclone $kind: make it as a changed folder is" there_by sync "$room/some" "$there"
  check "rclone $kind: read and compare that" there_by check --download "$room/some" "$there"
  check "rclone $kind: move a file" there_by moveto "$there/g1" "$there/moved"
  check "rclone $kind: remove it" there_by purge "$there"
}

for size in $sizes 1 65536 1048577; do [ -e "$room/f$size" ] || head -c "$size" /dev/urandom > "$room/f$size"; done
head -c "$whole" /dev/urandom > "$room/big"
has_smbclient=; command -v smbclient > /dev/null && has_smbclient=yes || echo "smbclient is missing: its checks are left out"
has_cryptography=; python3 -c 'import cryptography' 2> /dev/null && has_cryptography=yes || echo "python3's cryptography is missing: the checks of NTLM without SPNEGO and of marks over a start are left out"
has_impacket=; /usr/bin/python3 -c 'import impacket' 2> /dev/null && has_impacket=yes || echo "python3-impacket is missing: its checks are left out"
has_smbc=; /usr/bin/python3 -c 'import smbc' 2> /dev/null && has_smbc=yes || echo "python3-smbc is missing: its checks are left out"
has_rclone=; command -v rclone > /dev/null && has_rclone=yes || echo "rclone is missing: its checks are left out"

users='user user Password\nuser other Second\n'
for kind in sealed signed; do
  folder=$kind
  if [ $kind = sealed ]; then settings="peers 256\n$users"; protection=(); else settings="cipher none\npeers 256\n$users"; protection=(--client-protection=sign); fi
  begin "$folder" "$settings"
  [ -n "$has_smbclient" ] && with_smbclient
  if [ -n "$has_impacket" ]; then
    [ $kind = sealed ] && way=seal || way=sign
    with_impacket impacket_client.py $way
    with_impacket impacket_frames.py $way
  fi
  [ -n "$has_smbc" ] && lines_of /usr/bin/python3 "$top/tools/smbc_client.py" "$port" "$kind" user Password data
  [ -n "$has_rclone" ] && with_rclone
  if [ -n "$has_smbclient" ] && [ $kind = sealed ]; then
    check "smbclient signing: a share that seals" smb --client-protection=sign -c ls
    protection=(--client-protection=encrypt)
    for name in $ciphers; do check "smbclient sealing by itself: put, get and list by $name" by_one "client smb3 encryption algorithms" "$name"; done
  elif [ -n "$has_smbclient" ]; then
    for name in $signings; do check "smbclient signed: put, get and list by $name" by_one "client smb3 signing algorithms" "$name"; done
  fi
  if [ -n "$has_cryptography" ]; then
    bare "$kind" spnego
    restarted "$kind"
  fi
  check "$kind: 200 connections at once" timeout "$limit" python3 "$top/tools/many_connections.py" "$port" 200 0
  stop
  begin "$folder-any" "tokens any\n$settings"
  [ -n "$has_cryptography" ] && bare "$kind" any
  [ -n "$has_impacket" ] && with_impacket impacket_client.py $way-alone
  [ -n "$has_smbclient" ] && check "smbclient $kind: a server that takes any token" smb "${protection[@]}" -c ls
  stop
done
# The other way round: the command run against Samba's server.
if [ -x /usr/sbin/smbd ] && [ "$(id -u)" = 0 ]; then
  lines_of /usr/bin/python3 "$top/tools/run_samba.py" "${program[0]}"
else
  echo "run: left out, since there is no smbd here, or no root"
fi
echo "$well checks passed, $failed failed"
[ $failed = 0 ]
