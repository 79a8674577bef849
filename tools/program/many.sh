#!/bin/sh
# Runs a program on 10,000 inputs by each engine of docs/MANY.md, on this machine over loopback, kills a worker in the middle, and compares
# the tables, which have to be the same. Tests what examples/many/*.sh have to survive. Prints a line for each case, ends with
# `N passed, M failed`, and fails if one does.
#
#   ./dev many                       all of it
#   ./dev many scripts dask          these: scripts, lines, threads, processes, dask, mpi, parallel, ssh, slurm
#
# COUNT is the number of inputs. An engine is left out if it isn't installed. Debian has them: python3-distributed, python3-mpi4py with openmpi-bin,
# slurm-wlm with munge, parallel, openssh-server with rsync; PYTHON is the interpreter that finds them.
root=$(readlink -f "$0") && root=${root%/tools/*}
many=$root/examples/many
tw=$("$root/script/pick.sh" tw_main) && YUGLEMIT_LIBRARY=$("$root/script/pick.sh" tw_embed) || exit
export YUGLEMIT_LIBRARY
python=${PYTHON:-/usr/bin/python3}
count=${COUNT:-10000}
# The first of the three ports of loopback that our own servers of ssh and Slurm listen at; none of them is taken.
port=$("$python" -c 'import random, socket
def is_free(port): return socket.socket().connect_ex(("127.0.0.1", port)) != 0
print(next(port for port in random.sample(range(20000, 32000), 1000) if all(is_free(port + place) for place in range(3))))') || exit 70
PYTHONPATH=$root/embed/python${PYTHONPATH:+:$PYTHONPATH}
export PYTHONPATH PYTHONDONTWRITEBYTECODE=1
[ $# -gt 0 ] || set -- scripts lines threads processes dask mpi parallel ssh slurm
started=''
# shellcheck source=tools/common/report.sh
. "$root/tools/common/report.sh"

# Ends what this script started, and nothing else.
leave() {
    for it in $started; do kill "$it" 2>/dev/null; done
    for it in $started; do wait "$it" 2>/dev/null; done
    rm -rf "$room"
}
trap leave EXIT
trap 'exit 130' INT TERM HUP

start() {
    "$@" >>"$room/servers" 2>&1 &
    last=$!
    started="$started $last"
}

installed() {
    "$@" >/dev/null 2>&1 && return
    echo "left out: ${3:-$1} isn't installed"
    return 1
}

same() {
    sort "$1" | cmp - "$room/wanted"
}

# until SECONDS COMMAND..: waits until the command succeeds.
until_it() {
    left=$1
    shift
    until "$@" >/dev/null 2>&1; do
        left=$((left - 1))
        [ "$left" -gt 0 ] || return 1
        sleep 1
    done
}

"$tw" --version >/dev/null || { echo "many.sh: there is no program $tw; ./tw build makes it" >&2; exit 70; }
"$python" -c 'import yuglemit; yuglemit.session(["--version"])' || exit 70
program=$root/examples/mapreduce.twn
mkdir "$room/inputs" "$room/few"
awk -v count="$count" -v folder="$room/inputs" 'BEGIN { for (i = 1; i <= count; i++) { file = folder "/n" i ".in"; print "ints:1=" i ",2=7" >file; close(file) } }'
for i in $(seq 1 40); do cp "$room/inputs/n$i.in" "$room/few"; done
mkdir "$room/more" && for i in $(seq 1 150); do echo 'ints:' >"$room/more/m$i.in"; done

# The expected results are arithmetic: the squares, and their sum.
awk -v count="$count" 'BEGIN { for (i = 1; i <= count; i++)
    printf "n%d\t0\tout 0 cont int closed 2;  at 1 int %d;  at 2 int 49;out 1 int %d;quiet;\n", i, i * i, i * i + 49 }' | sort >"$room/wanted"

# --- lines of inputs

# lines_wanted FILE: whether the answers have the numbers and the outputs that arithmetic gives.
lines_wanted() {
    sed 's/^{"line":\([0-9]*\),.*"outputs":\(.*\),"status":"quiet"}$/\1 \2/' "$1" >"$room/lines.table"
    awk -v count="$count" 'BEGIN { for (i = 1; i <= count; i++) printf "%d [{\"1\":%d,\"2\":49},%d]\n", i, i * i, i * i + 49 }' | cmp - "$room/lines.table"
}

whole_file() {
    "$many/lines.sh" "$tw" "$program" "$room/inputs.jsonl" 1 "$count" >"$room/lines.out" && lines_wanted "$room/lines.out"
}

slices() {
    quarter=$((count / 4 + 1))
    for first in 1 $((quarter + 1)) $((2 * quarter + 1)) $((3 * quarter + 1)); do
        "$many/lines.sh" "$tw" "$program" "$room/inputs.jsonl" "$first" $((first + quarter - 1)) >"$room/lines.$first" &
        started="$started $!"
    done
    for first in 1 $((quarter + 1)) $((2 * quarter + 1)) $((3 * quarter + 1)); do
        until_it 100 sh -c "[ \$(wc -l <'$room/lines.$first') -eq $((first + quarter - 1 > count ? count - first + 1 : quarter)) ]"
        cat "$room/lines.$first"
    done >"$room/lines.out"
    lines_wanted "$room/lines.out"
}

one_line_refused() {
    printf '[{"1": 3, "2": 7}]\n[7]\n' >"$room/two.jsonl"
    refuses "$many/lines.sh" "$tw" "$program" "$room/two.jsonl" 1 2 >"$room/lines.out" && grep -q '^{"line":2,.*"refused O02' "$room/lines.out"
}

# Makes programs with inputs of their own, as assembly text and as hex text: $room/own1.tw, $room/own1.hex and so on.
own_inputs() {
    "$tw" asm --names <"$program" >"$room/own.hex" || return
    for it in "$program" "$room/own.hex"; do
        case $it in *.hex) end=hex ;; *) end=tw ;; esac
        { cat "$it" && printf 'inputs\nints:1=5\nend\n'; } >"$room/own1.$end"
        { cat "$it" && printf 'inputs\r\n[{"1": 5}]\r\nend\r\n'; } >"$room/own2.$end"
        { cat "$it" && printf 'events\ntake e0\ninputs\nints:1=5\nend\n'; } >"$room/own3.$end"
        { cat "$it" && printf 'inputs\n'; } >"$room/own4.$end"
    done
}

# own_wanted FILE PROGRAM: whether a file has the error that `tw check` prints of such a program, and no output.
own_wanted() {
    case $2 in *.tw) wanted='refused A01' ;; *) wanted='refused H01' ;; esac
    grep -q "$wanted" "$1" && ! grep -q -e 'out' -e 'quiet' "$1"
}

own_inputs_of_lines() {
    own_inputs || return
    for it in "$room"/own?.tw "$room"/own?.hex; do
        refuses "$many/lines.sh" "$tw" "$it" "$room/inputs.jsonl" 1 2 >"$room/lines.out" && own_wanted "$room/lines.out" "$it" || return
    done
}

lines() {
    awk -v count="$count" 'BEGIN { for (i = 1; i <= count; i++) print "[{\"1\": " i ", \"2\": 7}]" }' >"$room/inputs.jsonl"
    check "lines: $count lines in one process" whole_file
    check "lines: four slices side by side have the file's numbers" slices
    check "lines: a rejected line is reported, and by the status" one_line_refused
    check "lines: a program with inputs of its own is rejected" own_inputs_of_lines
}

# --- the scripts

table_of() {
    "$many/table.sh" "$1" | grep -v '^status '
}

# few_wanted RESULTS [COUNT]: whether the table of the first inputs, forty if nothing is said, is right.
few_wanted() {
    table_of "$1" | sort >"$room/few.table"
    for i in $(seq 1 "${2:-40}"); do echo "n$i"; done | sort | join -t "$(printf '\t')" - "$room/wanted" | cmp - "$room/few.table"
}

# Makes the scripts' run, in RESULTS, with options.
few() {
    results=$1
    shift
    "$many/parallel.sh" "$tw" "$program" "$room/few" "$results" "$@"
}

refuses() {
    ! "$@"
}

answers() {
    find "$1" -name '*.status' | wc -l
}

status_of() {
    read -r status _ <"$1" && echo "$status"
}

bound_is_small() {
    seconds=$("$many/bound.sh" "$tw" "$program") && echo "$seconds" && [ "$seconds" -le 2 ]
}

bound_with_circle() {
    printf 'proc control\nregs\nPUT 0 0 any\nRET\n' >"$room/circle.tw"
    seconds=$("$many/bound.sh" "$tw" "$room/circle.tw" 1000000) && [ "$seconds" -ge 10 ]
}

# A run of texts takes no more processor time than bound.sh prints. CAT of 2,000 bytes takes five times as long as the dearest instruction of ints.
bound_of_texts() {
    text=$(head -c 2000 /dev/zero | tr '\0' a)
    printf 'proc control\nregs text text text\nTEXT v0 "%s"\nTEXT v1 "%s"\nREPEAT 1000\nREPEAT 1000\nREPEAT 10\nCAT v2 v0 v1 +0\nEND\nEND\nEND\nRET\n' "$text" "$text" >"$room/texts.tw"
    bound=$("$many/bound.sh" "$tw" "$room/texts.tw") && "$python" - "$bound" "$tw" "$room/texts.tw" <<'TEXT'
import resource, subprocess, sys
subprocess.run([sys.argv[2], "run", sys.argv[3]], check=True)
took = sum(resource.getrusage(resource.RUSAGE_CHILDREN)[:2])
print(took, "of", sys.argv[1])
sys.exit(took > float(sys.argv[1]))
TEXT
}

changed_input() {
    mkdir "$room/one" && echo 'ints:1=3' >"$room/one/n.in"
    "$many/parallel.sh" "$tw" "$program" "$room/one" "$room/changed" && grep -q 'out 1 int 9$' "$room/changed/n.out" || return
    echo 'ints:1=4' >"$room/one/n.in"
    "$many/parallel.sh" "$tw" "$program" "$room/one" "$room/changed" && grep -q 'out 1 int 16$' "$room/changed/n.out"
}

changed_program() {
    sed 's/^INT number -1/INT number -2/' "$program" >"$room/other.twn"
    before=$(cat "$room/changed/n.status")
    "$many/parallel.sh" "$tw" "$room/other.twn" "$room/one" "$room/changed" && [ "$before" != "$(cat "$room/changed/n.status")" ]
}

unchanged_is_kept() {
    before=$(stat -c %Y.%i "$room/changed/n.status")
    "$many/parallel.sh" "$tw" "$room/other.twn" "$room/one" "$room/changed" && [ "$before" = "$(stat -c %Y.%i "$room/changed/n.status")" ]
}

options_reach_the_run() {
    "$many/parallel.sh" "$tw" "$program" "$room/one" "$room/limited" -- --limit 5 && [ "$(status_of "$room/limited/n.status")" = 4 ] &&
        timeout 60 "$many/parallel.sh" "$tw" "$program" "$room/one" "$room/limited" -- --limit 1000000 && [ "$(status_of "$room/limited/n.status")" = 0 ]
}

refused_before_any_run() {
    printf 'proc control write int\nregs\nRET\n' >"$room/refused.tw"
    refuses "$many/parallel.sh" "$tw" "$room/refused.tw" "$room/one" "$room/none" && [ "$(answers "$room/none")" = 0 ]
}

# without_inputs SCRIPT: whether a script says that there are no inputs.
without_inputs() {
    "$many/$1" "$tw" "$program" "$room/nowhere" "$room/none"
    [ $? = 66 ]
}

# Each script says which program it lacks: one in no folder, a folder, a file that can't be executed, a word that isn't on the PATH.
missing_programs() {
    for script in parallel.sh array.sh todo.sh; do
        for it in "$room/nowhere/deep/tw" "$room" "$program" no-such-tw ''; do
            "$many/$script" "$it" "$program" "$room/few" "$room/none" 2>"$room/message"
            [ $? = 66 ] && [ "$(cat "$room/message")" = "$script: there is no program $it" ] || return
        done
        "$many/$script" "$tw" "$room/nowhere/deep/it.tw" "$room/few" "$room/none" 2>"$room/message"
        [ $? = 66 ] && grep -q "^$script: $room/nowhere/deep/it.tw.* can't be read$" "$room/message" || return
    done
}

refused_input_is_an_answer() {
    mkdir "$room/wrong" && echo 39 >"$room/wrong/w.in" && echo 'text:--help' >"$room/wrong/x.in"
    "$many/parallel.sh" "$tw" "$program" "$room/wrong" "$room/wrong.out"
    [ "$(status_of "$room/wrong.out/w.status")" = 2 ] && [ "$(status_of "$room/wrong.out/x.status")" = 1 ]
}

own_inputs_of_one() {
    own_inputs || return
    for it in "$room"/own?.tw "$room"/own?.hex; do
        for options in '' --json; do
            # shellcheck disable=SC2086
            "$many/one.sh" "$tw" "$it" "$room/inputs/n1.in" "$room/own" -- $options && [ "$(status_of "$room/own.status")" = 1 ] &&
                own_wanted "$room/own.out" "$it" || return
        done
    done
    "$many/one.sh" "$tw" "$room/own.hex" "$room/inputs/n1.in" "$room/own" && [ "$(status_of "$room/own.status")" = 0 ] && grep -qx 'out 1 int 50' "$room/own.out"
}

# Ends the script by a signal while it runs: results stay, and the same command continues.
killed() {
    rm -rf "$room/killed"
    mkdir -p "$room/killed"
    # A shell lets its background jobs ignore INT, and a script can't undo that.
    env --default-signal=INT "$many/parallel.sh" "$tw" "$program" "$room/few" "$room/killed" --jobs 1 --delay 1 >/dev/null 2>&1 &
    child=$!
    until_it 60 test -e "$room/killed/n1.status"
    sleep 1
    if [ "$1" = KILL ]; then
        for it in $(ps -o pid= --ppid "$child") "$child"; do kill -KILL "$it" 2>/dev/null; done
    else
        kill -"$1" "$child"
    fi
    wait "$child"
    done=$(answers "$room/killed")
    echo "$done answers after $1"
    [ "$done" -gt 0 ] && [ "$done" -lt 40 ] && few "$room/killed" && few_wanted "$room/killed" && [ -z "$(find "$room/killed" -name '*.part')" ]
}

hard_names() {
    mkdir "$room/hard names" && for it in "-a b'c;\$(d)" '\' 'a\nb' '\\e "f"'; do cp "$room/inputs/n1.in" "$room/hard names/$it.in"; done
    "$many/parallel.sh" "$tw" "$program" "$room/hard names" "$room/hard\tresults" && [ "$(answers "$room/hard\tresults")" = 4 ] &&
        [ -z "$("$many/todo.sh" "$tw" "$program" "$room/hard names" "$room/hard\tresults" | sed 1d)" ]
}

name_of_two_lines() {
    mkdir "$room/two lines" && cp "$room/inputs/n1.in" "$room/two lines/a
b.in"
    "$many/parallel.sh" "$tw" "$program" "$room/two lines" "$room/none" 2>"$room/message"
    [ $? = 66 ] && grep -q 'has a line end$' "$room/message"
}

scripts() {
    check "bound.sh: a program of names, and no more than what its tasks can do" bound_is_small
    check "bound.sh: a run of texts takes no longer" bound_of_texts
    check "bound.sh: tasks in a circle have the limit alone" bound_with_circle
    installed command -v parallel || return
    check "parallel.sh: forty inputs" few "$room/few.out"
    check "parallel.sh: the table" few_wanted "$room/few.out"
    check "parallel.sh: a changed input runs again" changed_input
    check "parallel.sh: a changed program runs again" changed_program
    check "parallel.sh: nothing changed, nothing runs" unchanged_is_kept
    check "parallel.sh: options after --" options_reach_the_run
    check "parallel.sh: a rejected program starts nothing" refused_before_any_run
    check "parallel.sh: no inputs" without_inputs parallel.sh
    check "parallel.sh, array.sh, todo.sh: no program" missing_programs
    check "parallel.sh: rejected inputs are answers" refused_input_is_an_answer
    check "one.sh: a program with inputs of its own is rejected" own_inputs_of_one
    check "parallel.sh: names with blanks, quotes, dollars and backslashes" hard_names
    check "parallel.sh: no name has two lines" name_of_two_lines
    for signal in TERM HUP INT KILL; do check "parallel.sh: $signal loses no answer" killed $signal; done
}

# --- the engines

threads() {
    "$python" - "$program" "$room/inputs" >"$room/threads.table" <<TEXT
import pathlib, sys
sys.path.insert(0, "$many")
import folder, yuglemit
program = yuglemit.load(pathlib.Path(sys.argv[1]))
folder.table(program, folder.read(program, sys.argv[2]))
TEXT
    check "threads: $count inputs" same "$room/threads.table"
}

# Files that end early, and wrong ones: a line each, which is the one of the shell's scripts.
odd_files() {
    mkdir "$room/odd" "$room/odd.out" && printf 'ints:1=3,2=7\r\nend\r\n39\n' >"$room/odd/a.in" && echo 39 >"$room/odd/b.in" &&
        echo 'ints:1=3,1=7' >"$room/odd/c.in" && printf 'text:\377\n' >"$room/odd/d.in" && echo 'tints:' >"$room/odd/e.in" || return
    for it in a b c d e; do "$many/one.sh" "$tw" "$program" "$room/odd/$it.in" "$room/odd.out/$it" 2>/dev/null || return; done
    "$python" "$many/processes.py" "$program" "$room/odd" >"$room/odd.table" && table_of "$room/odd.out" | cmp - "$room/odd.table" && [ "$(wc -l <"$room/odd.table")" = 5 ]
}

processes() {
    "$python" "$many/processes.py" "$program" "$room/inputs" >"$room/processes.table" 2>"$room/processes.log" &
    child=$!
    kill_one "$child"
    wait "$child"
    check "processes: $count inputs, one process killed" same "$room/processes.table"
    check "processes: files that end early or are wrong, as one.sh has them" odd_files
}

# Kills the first process that a process started, a moment after it is there.
kill_one() {
    until_it 60 sh -c "ps -o pid= --ppid $1 | grep -q ." || return
    sleep 0.5
    victim=$(ps -o pid= --ppid "$1" | head -n 1)
    [ -z "$victim" ] || kill -KILL "$victim"
}

dask() {
    installed "$python" -c 'import distributed' || return
    start "$python" -m distributed.cli.dask_scheduler --host 127.0.0.1 --port 0 --no-dashboard --scheduler-file "$room/dask.json"
    until_it 60 test -s "$room/dask.json"
    address=$(sed -n 's/.*"address": "\(.*\)",*/\1/p' "$room/dask.json" | head -n 1)
    for _ in 1 2 3; do
        start "$python" -m distributed.cli.dask_worker "$address" --host 127.0.0.1 --nthreads 1 --no-nanny --no-dashboard --local-directory "$room"
    done
    victim=$last
    "$python" "$many/dask_cluster.py" "$program" "$room/inputs" "$address" >"$room/dask.table" 2>>"$room/servers" &
    child=$!
    until_it 60 test -s "$room/dask.table"
    kill -KILL "$victim"
    wait "$child"
    check "dask: $count inputs, one worker killed" same "$room/dask.table"
}

mpi() {
    installed "$python" -c 'import mpi4py.futures' && installed command -v mpiexec || return
    mpiexec --allow-run-as-root --oversubscribe --mca btl self,vader --mca plm_rsh_agent false -n 4 \
        "$python" -m mpi4py.futures "$many/mpi.py" "$program" "$room/inputs" >"$room/mpi.table" 2>>"$room/servers"
    check "mpi: $count inputs" same "$room/mpi.table"
}

parallel_runs() {
    "$many/parallel.sh" "$tw" "$program" "$room/inputs" "$room/parallel" >/dev/null 2>&1 &
    child=$!
    until_it 100 sh -c "ls '$room/parallel' 2>/dev/null | grep -q 'n1.*status'"
    sleep 3
    for it in $(ps -o pid= --ppid "$child"); do kill -KILL "$it" 2>/dev/null; done
    wait "$child"
    done=$(answers "$room/parallel")
    "$many/parallel.sh" "$tw" "$program" "$room/inputs" "$room/parallel" >/dev/null 2>&1
    table_of "$room/parallel" >"$room/parallel.table"
    check "parallel: $count inputs, killed after $done of them" same "$room/parallel.table"
}

# A server of ssh of our own, with keys of its own, at a port of loopback.
start_sshd() {
    mkdir -p "$room/ssh" /run/sshd
    for key in host user; do ssh-keygen -q -t ed25519 -N '' -f "$room/ssh/$key" || return; done
    printf '#!/bin/sh\nexec ssh -F /dev/null -o HostName=127.0.0.1 -p %s -i %s -o StrictHostKeyChecking=no -o UserKnownHostsFile=/dev/null -o LogLevel=ERROR "$@"\n' \
        "$1" "$room/ssh/user" >"$room/ssh/ssh" && chmod +x "$room/ssh/ssh"
    start "$(command -v sshd)" -D -f /dev/null -p "$1" -h "$room/ssh/host" -o ListenAddress=127.0.0.1 -o "AuthorizedKeysFile=$room/ssh/user.pub" -o UsePAM=no -o StrictModes=no
    until_it 20 "$room/ssh/ssh" one true
}

over_ssh() {
    mkdir "$room/five" && cp "$room"/inputs/n[1-5].in "$room/five" && before=$(echo ~/yuglemit.*) || return
    "$many/parallel.sh" "$tw" "$program" "$room/five" "$room/ssh.out" --sshlogin 2/one -- --limit 20000 && few_wanted "$room/ssh.out" 5 && [ "$(echo ~/yuglemit.*)" = "$before" ]
}

ssh_runs() {
    installed command -v parallel && installed command -v sshd && installed command -v rsync || return
    PARALLEL_SSH=$room/ssh/ssh
    export PARALLEL_SSH
    check "ssh: a server on loopback" start_sshd "$port"
    check "ssh: five inputs, and nothing stays there" over_ssh
}

slurm_conf() {
    host=$(hostname -s)
    cat <<TEXT
ClusterName=loopback
SlurmctldHost=$host(127.0.0.1)
SlurmctldPort=$1
SlurmdPort=$(($1 + 1))
SlurmUser=root
AuthType=auth/munge
AuthInfo=socket=$room/slurm/munge.sock
CredType=cred/munge
StateSaveLocation=$room/slurm/state
SlurmdSpoolDir=$room/slurm/spool
SlurmctldPidFile=$room/slurm/slurmctld.pid
SlurmdPidFile=$room/slurm/slurmd.pid
SlurmctldLogFile=$room/slurm/slurmctld.log
SlurmdLogFile=$room/slurm/slurmd.log
ProctrackType=proctrack/linuxproc
TaskPlugin=task/none
MpiDefault=none
JobAcctGatherType=jobacct_gather/none
SelectType=select/cons_tres
SelectTypeParameters=CR_Core
MaxArraySize=101
ReturnToService=2
SchedulerParameters=sched_interval=1,batch_sched_delay=0
NodeName=$host NodeAddr=127.0.0.1 CPUs=$(nproc) State=UNKNOWN
PartitionName=short Nodes=$host Default=YES MaxTime=60 State=UP
TEXT
}

slurm_is_done() {
    [ -z "$(squeue -h)" ]
}

start_slurm() {
    mkdir -p "$room/slurm/state" "$room/slurm/spool"
    dd if=/dev/urandom of="$room/slurm/munge.key" bs=1024 count=1 2>/dev/null
    chmod 711 "$room" "$room/slurm"
    chmod 400 "$room/slurm/munge.key"
    slurm_conf $((port + 1)) >"$room/slurm/slurm.conf"
    SLURM_CONF=$room/slurm/slurm.conf
    export SLURM_CONF
    start munged --foreground --force --key-file="$room/slurm/munge.key" --socket="$room/slurm/munge.sock" --pid-file="$room/slurm/munge.pid" \
        --log-file="$room/slurm/munge.log" --seed-file="$room/slurm/munge.seed"
    until_it 20 test -S "$room/slurm/munge.sock"
    start slurmctld -D
    start slurmd -D
    until_it 60 sh -c '[ "$(sinfo -h -o %t)" = idle ]'
}

# Submits the array, ends one of its jobs and one run in the middle, and submits again what has no answer.
slurm_scripts() {
    "$many/array.sh" "$tw" "$program" "$room/inputs" "$room/array" "$@" || return
    until_it 60 sh -c "ls '$room/array' | grep -q status"
    scancel --state=RUNNING "$(squeue -h -r -t R -o %i | head -n 1)"
    until_it 900 slurm_is_done
    echo "$(answers "$room/array") answers"
    "$many/array.sh" "$tw" "$program" "$room/inputs" "$room/array" && until_it 900 slurm_is_done
    table_of "$room/array" >"$room/array.table"
    same "$room/array.table"
}

slurm_python() {
    mkdir -p "$room/python_array"
    sbatch --array=0-9 --output="$room/python_array/%a.log" --wrap="$python $many/slurm_array.py $program $room/inputs $room/python_array" || return
    until_it 900 slurm_is_done
    cat "$room"/python_array/*.table >"$room/python_array.all"
    same "$room/python_array.all"
}

# A run of half a minute: 200 of them in a job are more than the hour that the partition allows.
slurm_time() {
    for options in "" "--partition=short" "-p short"; do
        rm -rf "$room/timed"
        # shellcheck disable=SC2086
        "$many/array.sh" "$tw" "$room/other_slow.tw" "$room/more" "$room/timed" 200 --hold $options || return
        limit=$(squeue -h -o %l | head -n 1)
        scancel -u "$(id -un)"
        until_it 60 slurm_is_done
        echo "time $limit"
        case $limit in
            *-* | [2-9]:*:* | ??:*:* | 1:0[1-9]:* | 1:[1-9]?:*) return 1 ;;
        esac
    done
}

# No number of files precedes the options, and the logs of an earlier array go.
array_options() {
    mkdir -p "$room/unnumbered" && touch "$room/unnumbered/slurm-99.log"
    "$many/array.sh" "$tw" "$program" "$room/few" "$room/unnumbered" --partition=short --hold || return
    [ "$(squeue -h -r | wc -l)" = 1 ] && [ ! -e "$room/unnumbered/slurm-99.log" ]
    good=$?
    scancel -u "$(id -un)"
    until_it 60 slurm_is_done && return "$good"
}

slurm() {
    installed command -v slurmctld && installed command -v munged && installed command -v sbatch || return
    check "slurm: one node" start_slurm
    check "array.sh: options of sbatch and no number of files" array_options
    check "array.sh: no inputs" without_inputs array.sh
    printf 'proc control closed cont int\nregs\nREPEAT 1000\nREPEAT 1000\nREPEAT 900\nEND\nEND\nEND\nDROPR d0\nRET\n' >"$room/other_slow.tw"
    check "slurm: a job's time keeps to the partition's, with options of sbatch and without" slurm_time
    check "slurm: $count inputs by array.sh, more than MaxArraySize jobs of 20, one job ended" slurm_scripts 20 --partition=short
    check "slurm: $count inputs by slurm_array.py" slurm_python
}

for engine; do
    case $engine in
        scripts | lines | threads | processes | dask | mpi | slurm) $engine ;;
        ssh) ssh_runs ;;
        parallel) installed command -v parallel && parallel_runs ;;
        *) echo "many.sh: unknown engine $engine" >&2; exit 2 ;;
    esac
done
summary
