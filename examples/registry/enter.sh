coproc LIVE { ./live examples/registry/registry; }
program=$LIVE_PID

# ask LINE: types a line, and an ECHO behind it, whose answer ends the answers to the line
ask() {
    printf '%s\nECHO .\n' "$1" >&"${LIVE[1]}"
    while IFS= read -r answer <&"${LIVE[0]}" && [ "$answer" != . ]; do echo "$answer"; done
}

ask 'IN TERM1 KDCSIGN CLERK,INK'
for word in ENTER ALAN LONDON YES; do ask "IN TERM1 $word"; done
exec {LIVE[1]}>&-
wait "$program"
