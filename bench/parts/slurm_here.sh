#!/usr/bin/env bash
# Slurm on this machine alone, with one controller and one node: bench/parts/slurm_here.sh start FOLDER, and .. stop FOLDER
# It needs Debian's packages slurm-wlm and munge, and root. What it starts keeps its files below FOLDER; `start` prints the line that lets commands find it.
set -eu
folder=$(realpath -m "$2")
host=$(hostname -s)

start() {
    mkdir -p "$folder/state" "$folder/spool" /run/munge
    chown munge: /run/munge
    cat >"$folder/slurm.conf" <<C
ClusterName=here
SlurmctldHost=$host(127.0.0.1)
SlurmUser=root
AuthType=auth/munge
StateSaveLocation=$folder/state
SlurmdSpoolDir=$folder/spool
SlurmctldPidFile=$folder/slurmctld.pid
SlurmdPidFile=$folder/slurmd.pid
SlurmctldLogFile=$folder/slurmctld.log
SlurmdLogFile=$folder/slurmd.log
ProctrackType=proctrack/linuxproc
TaskPlugin=task/none
SelectType=select/cons_tres
SelectTypeParameters=CR_CPU
ReturnToService=2
NodeName=$host NodeAddr=127.0.0.1 CPUs=$(nproc) State=UNKNOWN
PartitionName=all Nodes=ALL Default=YES MaxTime=INFINITE State=UP
C
    export SLURM_CONF=$folder/slurm.conf
    # one that runs already serves
    munge -n >/dev/null 2>&1 || runuser -u munge -- /usr/sbin/munged --pid-file="$folder/munged.pid" --force
    slurmctld
    slurmd
    for _ in $(seq 60); do
        [ "$(sinfo -h -o %T 2>/dev/null)" = idle ] && break
        sleep 1
    done
    sinfo
    echo "export SLURM_CONF=$folder/slurm.conf"
}

stop() {
    for name in slurmd slurmctld munged; do
        [ ! -s "$folder/$name.pid" ] || kill "$(cat "$folder/$name.pid")" || true
    done
}

case $1 in
start) start ;;
stop) stop ;;
*) exit 2 ;;
esac
