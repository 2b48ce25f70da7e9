#!/usr/bin/env bash
# Runs the built program with words that it refuses, a call for help among them, over documents that it would answer.
# Each run must end with status 2, write nothing to standard output, and tell exactly the text that stands here. A call
# for the version ends with 0 and prints it, and tells nothing.
set -euo pipefail
cd "$(dirname "$0")/../.."

program=crates/desk/out/desk
folder=$(mktemp -d)
trap 'rm -rf "$folder"' EXIT
passed=0
failed=0

# Runs the program with the words after the text that it is to tell.
refused() {
    local status=0
    printf '%s\n' "$1" >"$folder/wanted"
    shift
    "$program" "$@" <examples/first-incident.jsonl >"$folder/out" 2>"$folder/err" || status=$?
    if [ "$status" = 2 ] && [ ! -s "$folder/out" ] && cmp "$folder/wanted" "$folder/err" >&2; then
        passed=$((passed + 1))
    else
        echo "refused-words: status $status of: $*" >&2
        failed=$((failed + 1))
    fi
}

# The same, where the text ends with what the command is used for.
misused() {
    local usage=$1 text=$2
    shift 2
    refused "$text

Usage: $usage

For more information, try '--help'." "$@"
}

bad_domain='desk: bad domain
desk: a domain is up to 128 letters, digits, hyphens and dots, with no dot at an end or beside another'

desk_help="A dispatch desk for emergency incidents

Usage: desk <COMMAND>

Commands:
  replay   Answers the documents on the standard input, one a line, on one log in memory
  world    Runs a group of nodes in memory through the events on the standard input, one a line
  answer   Answers the packets on the standard input as one node, whose state a file keeps
  serve    Runs one node of a group on the network of this host, with its state in a file
  cluster  Runs a whole group of nodes on the network of this host, with their states in memory
  send     Sends the documents on the standard input to a node or a group, one a line, and prints its replies
  status   Asks every node of a group for its place, and prints a line for each
  page     Serves the live page of a group to browsers on this host
  log      Prints the committed commands that a node's file keeps, one document a line, in order
  help     Print this message or the help of the given subcommand(s)

Options:
  -h, --help     Print help
  -V, --version  Print version"

replay_help="Answers the documents on the standard input, one a line, on one log in memory

Usage: desk replay --domain <domain>

Options:
      --domain <domain>  The desk's domain, under which it names incidents
  -h, --help             Print help

Example: desk replay --domain desk.example < examples/first-incident.jsonl"

world_help="Runs a group of nodes in memory through the events on the standard input, one a line

Usage: desk world --nodes <nodes> --domain <domain>

Options:
      --nodes <nodes>    How many nodes the group has, 3 or 5
      --domain <domain>  The desk's domain, under which it names incidents
  -h, --help             Print help

Example: desk world --nodes 3 --domain desk.example < examples/world-commit.events"

answer_help="Answers the packets on the standard input as one node, whose state a file keeps

Usage: desk answer --node <node> --nodes <nodes> --domain <domain> --file <file>

Options:
      --node <node>      The node's number, from 0
      --nodes <nodes>    How many nodes the group has, 3 or 5
      --domain <domain>  The desk's domain, under which it names incidents
      --file <file>      The SQLite file that keeps the node's state, made where it is not there
  -h, --help             Print help

Packets come as frames, as docs/FORMATS.md spells them, and the packets that the node sends go out so.

Example: desk answer --node 1 --nodes 3 --domain desk.example --file node-1.db < examples/answer/prepare.bin"

serve_help="Runs one node of a group on the network of this host, with its state in a file

Usage: desk serve [OPTIONS] --node <node> --nodes <nodes> --domain <domain> --port <port> --file <file>

Options:
      --node <node>                  The node's number, from 0
      --nodes <nodes>                How many nodes the group has, 3 or 5
      --domain <domain>              The desk's domain, under which it names incidents
      --port <port>                  The group's first port, from 1024 to 65000
      --file <file>                  The SQLite file that keeps the node's state, made where it is not there
      --log                          Tells each change of the node in a line of JSON on standard error
      --next                         Makes FILE.1 after a full FILE that has none, as a program of one file leaves it
      --epoch-places <epoch-places>  For trials: how many places an epoch has at all nodes, 1 to 65536; else 65536
      --member <member>              The token of a node that takes the place of a lost one, 1 to 1000000000000
      --hosts <hosts>                The hosts of the nodes, in their order, with commas between; else 127.0.0.1
      --key <key>                    The file of the key of nodes, and of clients where they have none of their own
      --client-key <client-key>      The file of the key of clients, where they have one of their own
  -h, --help                         Print help

Node I takes the other nodes at port PORT + I, and sessions at port PORT + 10 + I, on 127.0.0.1 or the
I-th of --hosts, which wants a key where it is no loopback. It ends with its standard input. Where the log of FILE
is full, it goes on in FILE.1, then in FILE.2 and so on.

Example: desk serve --node 0 --nodes 3 --domain desk.example --port 4000 --file node-0.db"

cluster_help="Runs a whole group of nodes on the network of this host, with their states in memory

Usage: desk cluster [OPTIONS] --nodes <nodes> --domain <domain> --port <port>

Options:
      --nodes <nodes>                How many nodes the group has, 3 or 5
      --domain <domain>              The desk's domain, under which it names incidents
      --port <port>                  The group's first port, from 1024 to 65000
      --epoch-places <epoch-places>  For trials: how many places an epoch has at all nodes, 1 to 65536; else 65536
  -h, --help                         Print help

Node I, from 0, takes the other nodes at port PORT + I, and sessions at port PORT + 10 + I, all on 127.0.0.1.
All end with the standard input, and their states with them.

Example: desk cluster --nodes 3 --domain desk.example --port 4000"

send_help="Sends the documents on the standard input to a node or a group, one a line, and prints its replies

Usage: desk send [OPTIONS] --port <port>

Options:
      --port <port>              A node's port for sessions, 1024 to 65014; with --nodes the group's first, to 65000
      --nodes <nodes>            How many nodes a group has, 3 or 5; a line goes to its primary until its final reply
      --seconds <seconds>        With --nodes, for how long a line is asked again: from 1 to 3600 seconds, else 30
      --host <host>              Without --nodes, the address or name of the node's host, else 127.0.0.1
      --hosts <hosts>            The hosts of the nodes, in their order, with commas between; else 127.0.0.1
      --key <key>                The file of the key of nodes, and of clients where they have none of their own
      --client-key <client-key>  The file of the key of clients, where they have one of their own
  -h, --help                     Print help

The nodes are those of \`desk serve\` or \`desk cluster\`. Where these were given --port PORT, the sessions of node I
are at port PORT + 10 + I of this host, or of --host or the I-th of --hosts. With --nodes the port is PORT itself, and
a line goes to one node after another until its final reply comes.

Examples: desk send --port 4010 < examples/first-incident.jsonl
          desk send --port 4000 --nodes 3 < examples/first-incident.jsonl"

status_help="Asks every node of a group for its place, and prints a line for each

Usage: desk status [OPTIONS] --port <port> --nodes <nodes>

Options:
      --port <port>              The group's first port, from 1024 to 65000
      --nodes <nodes>            How many nodes the group has, 3 or 5
      --hosts <hosts>            The hosts of the nodes, in their order, with commas between; else 127.0.0.1
      --key <key>                The file of the key of nodes, and of clients where they have none of their own
      --client-key <client-key>  The file of the key of clients, where they have one of their own
  -h, --help                     Print help

The nodes are those of \`desk serve\` or \`desk cluster\`, which were given --port PORT: node I is asked at port
PORT + 10 + I of this host, or of the I-th of --hosts. One that is silent for 3 seconds is down. Those that are up are
asked once more at the end.
The exit status is 0 where more than half of the nodes are at the greatest place that any node reported, and else 1.

Example: desk status --port 4000 --nodes 3"

page_help="Serves the live page of a group to browsers on this host

Usage: desk page [OPTIONS] --port <port> --nodes <nodes> --listen <listen>

Options:
      --port <port>              The group's first port, from 1024 to 65000
      --nodes <nodes>            How many nodes the group has, 3 or 5
      --listen <listen>          The port at which browsers come, from 1024 to 65535
      --seconds <seconds>        For how long a command is asked again: from 1 to 3600 seconds, else 30
      --hosts <hosts>            The hosts of the nodes, in their order, with commas between; else 127.0.0.1
      --key <key>                The file of the key of nodes, and of clients where they have none of their own
      --client-key <client-key>  The file of the key of clients, where they have one of their own
  -h, --help                     Print help

The nodes are those of \`desk serve\` or \`desk cluster\`, on this host or at --hosts, which were given --port PORT.
Browsers on this host open http://127.0.0.1:LISTEN/. Whoever may connect there may send commands. It ends with its
standard input.

Example: desk page --port 4000 --nodes 3 --listen 8080"

log_help="Prints the committed commands that a node's file keeps, one document a line, in order

Usage: desk log [OPTIONS] --file <file>

Options:
      --file <file>  The SQLite file of a node that is stopped, or a copy of it
      --from <from>  The first place whose command is printed, else 1
  -h, --help         Print help

\`desk replay\` makes the same board of all of them. A file is only read, with the log beside it (FILE-wal). Where its
log is full, FILE.1 follows, then FILE.2 and so on.

Example: desk log --file node-0.db --from 1000"

refused "$desk_help"
for word in --help -h help; do refused "$desk_help" "$word"; done
for word in --help -h; do refused "$replay_help" replay "$word"; done
refused "$replay_help" help replay
for word in --help -h; do refused "$world_help" world "$word"; done
refused "$world_help" help world
for word in --help -h; do refused "$answer_help" answer "$word"; done
refused "$answer_help" help answer
for word in --help -h; do refused "$serve_help" serve "$word"; done
refused "$serve_help" help serve
for word in --help -h; do refused "$cluster_help" cluster "$word"; done
refused "$cluster_help" help cluster
for word in --help -h; do refused "$send_help" send "$word"; done
refused "$send_help" help send
for word in --help -h; do refused "$status_help" status "$word"; done
refused "$status_help" help status
for word in --help -h; do refused "$page_help" page "$word"; done
refused "$page_help" help page
for word in --help -h; do refused "$log_help" log "$word"; done
refused "$log_help" help log

desk='desk <COMMAND>'
misused "$desk" "error: unrecognized subcommand 'replays'

  tip: a similar subcommand exists: 'replay'" replays
misused "$desk" "error: unexpected argument '--nope' found" --nope

replay='desk replay --domain <domain>'
misused "$replay" 'error: the following required arguments were not provided:
  --domain <domain>' replay
misused "$replay" "error: unexpected argument '--more' found" replay --domain desk.example --more
misused "$replay" "error: unexpected argument 'more' found" replay --domain desk.example more
misused "$replay" "error: the argument '--domain <domain>' cannot be used multiple times" \
    replay --domain desk.example --domain=x.example

for domain in '' . a..b desk.example. desk_example dësk; do
    refused "$bad_domain" replay --domain "$domain"
done

world='desk world --nodes <nodes> --domain <domain>'
misused "$world" 'error: the following required arguments were not provided:
  --nodes <nodes>
  --domain <domain>' world
misused "$world" 'error: the following required arguments were not provided:
  --domain <domain>' world --nodes 3
misused "$world" "error: unexpected argument '--more' found" world --nodes 3 --domain desk.example --more
bad_nodes() {
    refused "error: invalid value '$1' for '--nodes <nodes>': $2

For more information, try '--help'." world "--nodes=$1" --domain desk.example
}
bad_nodes 256 '256 is not in 0..=255'
bad_nodes -1 '-1 is not in 0..=255'
bad_nodes 99999999999999999999 'number too large to fit in target type'
bad_nodes '' 'cannot parse integer from empty string'
for nodes in three 3.0 ' 3' 0x3; do bad_nodes "$nodes" 'invalid digit found in string'; done
for nodes in 0 1 2 4 6 7 255; do
    refused 'desk: nodes must be 3 or 5' world --nodes "$nodes" --domain desk.example
    refused 'desk: nodes must be 3 or 5' world --nodes "$nodes" --domain desk_example
done
for domain in '' . a..b desk.example. desk_example dësk; do
    refused "$bad_domain" world --nodes 3 --domain "$domain"
done

answer='desk answer --node <node> --nodes <nodes> --domain <domain> --file <file>'
misused "$answer" 'error: the following required arguments were not provided:
  --node <node>
  --nodes <nodes>
  --domain <domain>
  --file <file>' answer
misused "$answer" 'error: the following required arguments were not provided:
  --file <file>' answer --node 0 --nodes 3 --domain desk.example

# the words of `answer` with a file that no run may make
answering() {
    local told=$1 node=$2 nodes=$3 domain=$4
    refused "$told" answer --node "$node" --nodes "$nodes" --domain "$domain" --file "$folder/unmade.db"
    if [ -e "$folder/unmade.db" ]; then
        echo "refused-words: a file was made by: answer --node $node --nodes $nodes --domain $domain" >&2
        failed=$((failed + 1))
    fi
}
for nodes in 0 1 2 4 6 255; do answering 'desk: nodes must be 3 or 5' 7 "$nodes" desk_example; done
for node in 3 4 5 255; do answering 'desk: node must be below nodes' "$node" 3 desk_example; done
for node in 5 6 255; do answering 'desk: node must be below nodes' "$node" 5 desk_example; done
for domain in '' . a..b desk.example. desk_example dësk; do answering "$bad_domain" 2 3 "$domain"; done
answering "error: invalid value '256' for '--node <node>': 256 is not in 0..=255

For more information, try '--help'." 256 3 desk.example
answering "error: invalid value 'three' for '--nodes <nodes>': invalid digit found in string

For more information, try '--help'." 0 three desk.example

# the words of `serve`, likewise
serving() {
    local told=$1 node=$2 nodes=$3 domain=$4 port=$5
    shift 5
    refused "$told" serve --node "$node" --nodes "$nodes" --domain "$domain" --port "$port" \
        --file "$folder/unmade.db" "$@"
    if [ -e "$folder/unmade.db" ]; then
        echo "refused-words: a file was made by: serve --node $node --nodes $nodes --domain $domain" >&2
        failed=$((failed + 1))
    fi
}
serve='desk serve --node <node> --nodes <nodes> --domain <domain> --port <port> --file <file>'
misused "$serve" 'error: the following required arguments were not provided:
  --node <node>
  --nodes <nodes>
  --domain <domain>
  --port <port>
  --file <file>' serve
misused "$serve" 'error: the following required arguments were not provided:
  --port <port>' serve --node 0 --nodes 3 --domain desk.example "--file=$folder/unmade.db"
for nodes in 0 1 2 4 6 255; do serving 'desk: nodes must be 3 or 5' 7 "$nodes" desk_example 4000; done
for node in 3 4 5 255; do serving 'desk: node must be below nodes' "$node" 3 desk_example 4000; done
for node in 5 6 255; do serving 'desk: node must be below nodes' "$node" 5 desk_example 4000; done
for domain in '' . a..b desk.example. desk_example dësk; do serving "$bad_domain" 2 3 "$domain" 4000; done

cluster='desk cluster --nodes <nodes> --domain <domain> --port <port>'
misused "$cluster" 'error: the following required arguments were not provided:
  --nodes <nodes>
  --domain <domain>
  --port <port>' cluster
misused "$cluster" 'error: the following required arguments were not provided:
  --nodes <nodes>' cluster --domain desk.example --port 4000
misused "$cluster" "error: unexpected argument '--node' found

  tip: a similar argument exists: '--nodes'" cluster --node 0 --nodes 3 --domain desk.example --port 4000
for nodes in 0 1 2 4 6 255; do
    refused 'desk: nodes must be 3 or 5' cluster --nodes "$nodes" --domain desk_example --port 4000
done
for domain in '' . a..b desk.example. desk_example dësk; do
    refused "$bad_domain" cluster --nodes 5 --domain "$domain" --port 4000
done

misused 'desk send --port <port>' 'error: the following required arguments were not provided:
  --port <port>' send

status='desk status --port <port> --nodes <nodes>'
misused "$status" 'error: the following required arguments were not provided:
  --port <port>
  --nodes <nodes>' status
misused "$status" 'error: the following required arguments were not provided:
  --nodes <nodes>' status --port 4000
misused "$status" "error: unexpected argument '--seconds' found" status --port 4000 --nodes 3 --seconds 3
for nodes in 0 1 2 4 6 255; do refused 'desk: nodes must be 3 or 5' status --port 4000 --nodes "$nodes"; done

page='desk page --port <port> --nodes <nodes> --listen <listen>'
misused "$page" 'error: the following required arguments were not provided:
  --port <port>
  --nodes <nodes>
  --listen <listen>' page
misused "$page" 'error: the following required arguments were not provided:
  --listen <listen>' page --port 4000 --nodes 3
misused "$page" "error: unexpected argument '--domain' found" \
    page --port 4000 --nodes 3 --listen 8080 --domain desk.example
for nodes in 0 1 2 4 6 255; do
    refused 'desk: nodes must be 3 or 5' page --port 4000 --nodes "$nodes" --listen 8080
done
bad_listen() {
    refused "error: invalid value '$1' for '--listen <listen>': $2

For more information, try '--help'." page --port 4000 --nodes 3 "--listen=$1"
}
for port in 0 1023 65536 -8080; do bad_listen "$port" "$port is not in 1024..=65535"; done
bad_listen http 'invalid digit found in string'
bad_listen '' 'cannot parse integer from empty string'

misused 'desk log --file <file>' 'error: the following required arguments were not provided:
  --file <file>' log
bad_from() {
    refused "error: invalid value '$1' for '--from <from>': $2

For more information, try '--help'." log --file node-0.db "--from=$1"
}
for place in 0 -1 1000000000000; do bad_from "$place" "$place is not in 1..=999999999999"; done
bad_from first 'invalid digit found in string'

# ports that none of the five takes; the first of the words is the greatest that it takes
bad_port() {
    local port=$1 why=$2 most=$3
    shift 3
    [ -n "$why" ] || why="$port is not in 1024..=$most"
    refused "error: invalid value '$port' for '--port <port>': $why

For more information, try '--help'." "$@" "--port=$port"
}
bad_ports() {
    local most=$1 port
    shift
    for port in 0 1023 "$((most + 1))" 65536 -4000; do bad_port "$port" '' "$most" "$@"; done
    for port in four 4000.0 ' 4000' 0x1000; do bad_port "$port" 'invalid digit found in string' "$most" "$@"; done
    bad_port '' 'cannot parse integer from empty string' "$most" "$@"
    bad_port 99999999999999999999 'number too large to fit in target type' "$most" "$@"
}
bad_ports 65000 serve --node 0 --nodes 3 --domain desk.example --file "$folder/unmade.db"
bad_ports 65000 cluster --nodes 3 --domain desk.example
bad_ports 65014 send
bad_ports 65000 status --nodes 3
bad_ports 65000 page --nodes 3 --listen 8080

# places of an epoch, which are given once, and to `serve` and `cluster` alone
bad_epoch_places() {
    local told="error: invalid value '$1' for '--epoch-places <epoch-places>': $2

For more information, try '--help'."
    serving "$told" 0 3 desk.example 4000 "--epoch-places=$1"
    refused "$told" cluster --nodes 3 --domain desk.example --port 4000 "--epoch-places=$1"
}
for places in 0 65537 -1; do bad_epoch_places "$places" "$places is not in 1..=65536"; done
for places in many 1.5 ' 1' 0x10; do bad_epoch_places "$places" 'invalid digit found in string'; done
bad_epoch_places '' 'cannot parse integer from empty string'
bad_epoch_places 9223372036854775808 'number too large to fit in target type'
no_epoch_places="error: a value is required for '--epoch-places <epoch-places>' but none was supplied

For more information, try '--help'."
refused "$no_epoch_places" cluster --nodes 3 --domain desk.example --port 4000 --epoch-places
serving "$no_epoch_places" 0 3 desk.example 4000 --epoch-places
serving "$no_epoch_places" 0 3 desk.example 4000 --epoch-places --next
misused "${cluster/cluster/cluster [OPTIONS]}" \
    "error: the argument '--epoch-places <epoch-places>' cannot be used multiple times" \
    cluster --nodes 3 --domain desk.example --port 4000 --epoch-places 8 --epoch-places=8

# a second file, which is asked for once, and of `serve` alone
serving "error: the argument '--epoch-places <epoch-places>' cannot be used multiple times

Usage: ${serve/serve/serve [OPTIONS]}

For more information, try '--help'." 0 3 desk.example 4000 --epoch-places 8 --next --epoch-places 9
serving "error: the argument '--next' cannot be used multiple times

Usage: ${serve/serve/serve [OPTIONS]}

For more information, try '--help'." 0 3 desk.example 4000 --next --log --next
serving "error: unexpected value '1' for '--next' found; no more were expected

Usage: $serve --next

For more information, try '--help'." 0 3 desk.example 4000 --next=1
serving "error: unexpected argument '1' found

Usage: ${serve/serve/serve [OPTIONS]}

For more information, try '--help'." 0 3 desk.example 4000 --next 1
misused "$cluster" "error: unexpected argument '--next' found" \
    cluster --nodes 3 --domain desk.example --port 4000 --next
bad_member() {
    serving "error: invalid value '$1' for '--member <member>': $2

For more information, try '--help'." 0 3 desk.example 4000 "--member=$1"
}
for token in 0 1000000000001 -1; do bad_member "$token" "$token is not in 1..=1000000000000"; done
bad_member 9223372036854775808 'number too large to fit in target type'
bad_member node 'invalid digit found in string'
bad_member '' 'cannot parse integer from empty string'
misused "$cluster" "error: unexpected argument '--member' found" \
    cluster --nodes 3 --domain desk.example --port 4000 --member 1
for word in --next --epoch-places --member; do
    misused "$answer" "error: unexpected argument '$word' found" \
        answer --node 0 --nodes 3 --domain desk.example "--file=$folder/unmade.db" "$word"
done

# a group that is followed
for nodes in 0 1 2 4 6 255; do refused 'desk: nodes must be 3 or 5' send --port 4000 --nodes "$nodes"; done
for port in 65001 65014; do refused 'desk: port out of range' send --port "$port" --nodes 3; done
refused 'desk: seconds need a number of nodes' send --port 4000 --seconds 30
bad_seconds() {
    local told="error: invalid value '$1' for '--seconds <seconds>': $2

For more information, try '--help'."
    refused "$told" send --port 4000 --nodes 3 "--seconds=$1"
    refused "$told" page --port 4000 --nodes 3 --listen 8080 "--seconds=$1"
}
for seconds in 0 3601 -1; do bad_seconds "$seconds" "$seconds is not in 1..=3600"; done
bad_seconds 1.5 'invalid digit found in string'
bad_seconds '' 'cannot parse integer from empty string'

# the version, which docs/RUNNING.md shows, also where a word comes behind
grep -m 1 -oE 'desk [0-9.]+ \(rattle-kit-[0-9a-z]+\)' docs/RUNNING.md >"$folder/wanted"
versioned() {
    local status=0
    "$program" "$@" <examples/first-incident.jsonl >"$folder/out" 2>"$folder/err" || status=$?
    if [ "$status" = 0 ] && [ ! -s "$folder/err" ] && cmp "$folder/wanted" "$folder/out" >&2; then
        passed=$((passed + 1))
    else
        echo "refused-words: status $status of: $*" >&2
        failed=$((failed + 1))
    fi
}
versioned --version
versioned -V
versioned --version replay
refused "$replay_help" replay --help --version
misused "$replay" "error: unexpected argument '--version' found" replay --domain desk.example --version

# a word that is no text, by itself and behind words that are taken
refused 'desk: a word of the command line is no text' $'\xff'
refused 'desk: a word of the command line is no text' replay --domain desk.example $'d\xc3'

echo "$passed passed, $failed failed"
[ "$failed" = 0 ]
