# What the examples over sockets share: servers that are started, awaited and stopped, and a count of what passed.
# A script that reads this has the program's path in `program` and a folder of its own in `folder`.

servers=()
passed=0
failed=0

# listens PORT: whether somebody listens there
listens() { (exec 3<>"/dev/tcp/127.0.0.1/$1") 2>/dev/null; }

# serve PORT WORD..: starts a server, the last of `servers`, and waits until it listens
serve() {
  local port=$1
  shift
  ! listens "$port" || return 1
  "$@" >"$folder/server$port" 2>&1 &
  servers+=($!)
  for _ in $(seq 100); do
    listens "$port" && return 0
    kill -0 "$!" 2>/dev/null || return 1
    sleep 0.05
  done
  return 1
}

stop_servers() {
  [ "${#servers[@]}" -eq 0 ] || kill "${servers[@]}" 2>/dev/null
  servers=()
}

# on_free_ports COMMAND: runs the command with a port of its own and, where it fails, with others
on_free_ports() {
  for _ in 1 2 3 4 5; do
    if "$1" $((20000 + (RANDOM % 20000))); then return 0; fi
    stop_servers
  done
  echo "no free ports were found"
  echo "0 passed, 1 failed"
  exit 1
}

# need_program: builds the program where that is not done, or ends
need_program() {
  "$program" none </dev/null >/dev/null 2>"$folder/build"
  [ $? -eq 2 ] && return
  cat "$folder/build"
  echo "0 passed, 1 failed"
  exit 1
}

# check WHAT STATUS: counts a test
check() {
  if [ "$2" -eq 0 ]; then
    passed=$((passed + 1))
  else
    failed=$((failed + 1))
    echo "failed: $1"
  fi
}

# sum_up: tells what passed; its status is the script's
sum_up() {
  echo "$passed passed, $failed failed"
  [ "$failed" -eq 0 ]
}
