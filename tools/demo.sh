# shellcheck shell=bash
# ./replay --demo: a door's cycle reports on their way to a gateway. Each end is the proved program on a record of its own, and every answer
# is its own; made up are the reports' texts and what the network does. $room, run, frame, explain and die are ./replay's.
# shellcheck disable=SC2154 # so they are assigned there, and peer by coproc

# What the door reports; the first six go unsequenced, the others reliable.
reports=(
    'door 7, cycle 41201, 3.4 s' 'door 7, cycle 41202, 3.5 s' 'door 7, cycle 41203, 3.4 s' 'door 7, cycle 41204, 3.9 s'
    'door 7, cycle 41205, 3.4 s' 'door 7, cycle 41206, 3.6 s' 'door 7, reopened 2 times' 'door 7, service due'
)
unsequenced=6
sent=0 lost=0 arrived=0 delivered=0 repeated=0 refused=0
datagrams=()
declare -A counted=()

# The program on a fresh record; it answers each call before it waits for the next.
start() {
    coproc peer { run; }
    at_work=$peer_PID
    # shellcheck disable=SC1083 # {peer[1]} names the descriptor to close
    exec 3>&"${peer[1]}" 4<&"${peer[0]}" {peer[1]}>&- {peer[0]}<&-
}

# At the end of its input it ends.
stop() {
    exec 3>&-
    wait "$at_work" || die "the program failed"
    exec 4<&-
}

# Makes a call: its line's numbers are in line[], its answer in words in $answer.
ask() { # CALL [NUMBER..] [hex:BYTES]
    local said
    frame "$@" >"$room/frame"
    cat "$room/frame" >&3
    read -r said <&4 || die "the program gave no answer to $1"
    printf '%s\n' "$said" >"$room/line"
    answer=$(explain answer "$room/frame" "$room/line")
    read -ra line <<<"${said%% #*}"
}

# The door sends report i; what its send step answers is written as the command in front of the report's bytes.
send_report() { # I
    local flags=1 list=1 text=${reports[$1]} bytes
    if (($1 < unsequenced)); then flags=2 list=0; fi
    ask send 0 "${#text}" "$flags"
    if [ "$answer" = "done" ]; then sent=$((sent + 1)); fi
    ask step "$list" $((1000 * $1))
    ask write "${line[@]:12:3}" $((line[12] & 15)) 64 "${line[@]:15}"
    bytes=$(printf '%02x' "${line[@]:2}" && printf '%s' "$text" | od -An -v -tx1)
    datagrams[$1]=${bytes//[[:space:]]/}
}

door() {
    local i
    start
    ask begin 1392 1
    ask state 5
    for i in "${!reports[@]}"; do send_report "$i"; done
    stop
}

say() { # NETWORK CALL [ANSWER]
    if [ $# -eq 2 ]; then printf '%-35s%s\n' "$@"; else printf '%-35s%-37s%s\n' "$@"; fi
}

lose() { # REPORT
    lost=$((lost + 1))
    say "report $1 is lost" 'no call is made'
}

# A datagram gets to the gateway, which reads the command and makes the call that it names.
arrive() { # REPORT HOW [BYTES CUT OFF]
    local datagram=${datagrams[$1 - 1]} call=reliable told
    datagram=${datagram:0:${#datagram}-2*${3:-0}}
    ask read 0 "hex:$datagram"
    told="number ${line[5]}, length ${line[6]}"
    if ((line[3] % 16 == 9)); then call=unsequenced told="group ${line[6]}, length ${line[7]}"; fi
    ask "$call" "${line[@]:3}" "${line[2]}" "hex:$datagram"
    arrived=$((arrived + 1))
    case $answer in
    delivered | stored) delivered=$((delivered + 1)) ;;
    'passed over') repeated=$((repeated + 1)) ;;
    *) refused=$((refused + 1)) ;;
    esac
    say "report $1 arrives$2" "$call: $told" "$answer"
}

# The gateway takes the next packet, if one is there, and reads its cell of the store.
receive() { # [WHY]
    local taken text
    ask receive
    taken=$answer
    if ((line[2] == 1)); then
        ask bytes $((4096 * line[4])) "${line[5]}"
        text=${answer#*: }
        taken+=": $text"
        counted[$text]=$((${counted[$text]:-0} + 1))
    fi
    say "${1:-(the gateway takes the next one)}" receive "$taken"
}

# What the network does, and what the gateway makes of it.
gateway() {
    local i
    start
    ask begin 1392 1
    ask state 5
    say 'ON THE NETWORK' "THE GATEWAY'S CALL" 'WHAT IT ANSWERED'
    arrive 1 ''
    arrive 1 ' again'
    lose 2
    arrive 3 ''
    arrive 4 ', its end cut off' 6
    arrive 4 ' again, whole'
    arrive 3 ' again'
    lose 5
    arrive 6 ''
    arrive 1 ' a third time'
    for i in 1 2 3 4; do receive; done
    arrive 8 ' before report 7'
    receive '(report 8 waits for report 7)'
    arrive 7 ''
    for i in 7 8; do receive; done
    arrive 7 ' again'
    receive
    stop
}

# The sum, over what came out of the store; only a report's own text counts.
sum() {
    local text times out=0 each='each once'
    for text in "${reports[@]}"; do
        times=${counted["\"$text\""]:-0}
        out=$((out + times))
        if ((times > 1)); then each='one more than once'; fi
    done
    printf '\nArrivals: %d, of them %d delivered or stored, %d repeated and passed over, %d refused.\n' \
        "$arrived" "$delivered" "$repeated" "$refused"
    printf 'Reports: %d sent, %d lost on the way, %d counted, %s.\n' "$sent" "$lost" "$out" "$each"
    [ "$((out + lost)), $each" = "$sent, each once" ] || die "the sum is not right"
}

demo() {
    printf 'A gateway keeps the record of one door. The door sends %d reports, %d unsequenced and %d reliable.\n' \
        "${#reports[@]}" "$unsequenced" $((${#reports[@]} - unsequenced))
    printf 'The network is made up; every answer, at both ends, is the proved program'"'"'s.\n\n'
    door
    gateway
    sum
}
