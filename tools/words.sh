# shellcheck shell=bash
# Calls and answers in words, for ./replay: $root, $room, run, frame and die are its own. The words are in words.txt.
# shellcheck disable=SC2154 # so they are assigned there

# A call's op by its name; a number stays.
op_of() { # CALL
    [[ $1 =~ ^[0-9]+$ ]] && printf '%s' "$1" && return
    awk -F '|' -v name="$1" '$1 == "call" && $3 == name { print $2; found = 1 } END { exit !found }' "$root/tools/words.txt" ||
        die "there is no call $1; see ./replay --help"
}

# The frames of calls, parted by "then".
frames() { # CALL.. [then CALL..]
    local word call=()
    for word in "$@" "then"; do
        if [ "$word" != "then" ]; then
            call+=("$word")
            continue
        fi
        [ ${#call[@]} -gt 0 ] || die "a call is missing beside then"
        frame "${call[@]}"
        call=()
    done
}

# Says the lines of a script; words.awk tells the styles.
explain() { # STYLE SCRIPT LINES
    od -An -v -tu1 "$2" | awk -v style="$1" -v lines="$3" -f "$root/tools/words.awk" "$root/tools/words.txt" -
}

# Runs the script in the room and says its lines.
worded() { # STYLE
    run <"$room/script" >"$room/lines"
    explain "$1" "$room/script" "$room/lines"
}

# Every call, in the order of words.txt, then what some of the numbers stand for.
list_calls() {
    awk -F '|' '
        function note(kind, more) { notes[kind] = notes[kind] (notes[kind] == "" ? "" : ", ") more }
        BEGIN { print "\nCalls: number, name, what it is: the numbers that follow. One that is missing reads as 0." }
        $1 == "call" { printf "%4d  %-13s %s%s\n", $2, $3, $4, $5 == "" ? "" : ": " $5 }
        $1 == "state" || $1 == "flag" || $1 == "list" || $1 == "channel" || $1 == "number" && $2 > 42 { note($1, $2 " " $3) }
        $1 == "command" { command[$2] = $3 ($4 == "" ? "" : ": " $4) }
        END {
            print "\nunsequenced, reliable, fragment: the bytes are the datagram, place is where the payload starts in it; read: where the command starts."
            print "settings: checksum 0 or 1; unsequenced, reliable and fragment are lent so much of the store as its length says, all is 49152;"
            print "    fragment is lent so much of the second store too, all is 32768. hash, bytes: which store 0 or 1, the second."
            print "setup, write, set-outgoing: kind is 1 to 12, packet 0 or 1, room up to 64; the fields of the kind come last."
            print "send: flags " notes["flag"] "; they add up."
            print "step: list 0 outgoing, 1 send-reliable. set-list: list " notes["list"] ", 8 to 15 the channels" q "; which 0 its length, then its slots."
            print "set-number: which 0 to 42 the numbers of ENetPeer in order, " notes["number"] ", 64 to 95 the words of the window."
            print "set-channel: which " notes["channel"] "."
            print "state: " notes["state"] "."
            print "command byte: the kind, 64 more says unsequenced, 128 more asks for acknowledgement. The kinds and their fields:"
            for (k = 1; k <= 12; k++) printf "%4d  %s\n", k, command[k]
        }' q="'" "$root/tools/words.txt"
}

# Every refusal, and for which calls when.
list_refusals() {
    awk -F '|' '
        BEGIN { print "\nRefusals: number, name, record and store after; of which calls, and when." }
        $1 == "call" { name[$2] = $3 }
        $1 == "refusal" { head[$2] = $3 ": " $4 }
        $1 == "why" {
            if (!($2 in told)) printf "%4d  %s\n", $2, head[$2]
            told[$2]
            n = split($3, op, ", ")
            for (k = 1; k <= n; k++) printf "%s%s", k == 1 ? "          " : ", ", name[op[k]]
            print ": " $4
        }' "$root/tools/words.txt"
}
