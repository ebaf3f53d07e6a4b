# Rows of docs/SCALE.md, read by ./test after tests/packages.sh, whose folder `shelf` and words it uses: the engines that run many
# processes or machines give the bytes of one `line`.

{ echo 'rules 2'; cat "$shelf/lines"; } > "$shelf/text"
"$program" line < "$shelf/text" > "$shelf/text-wanted"
wanted=$(sha256sum < "$shelf/text-wanted")

# GNU parallel, which reads the pieces of a file itself
if has parallel; then
  told 'parallel --pipepart' "$wanted" "$(parallel --pipepart -a "$shelf/text" --keep-order --header : --recend '\n' --block 100k --jobs 3 --will-cite \
    "$(printf '%q' "$program") line" 2> "$room/said" | sha256sum)"
else
  skip 'parallel --pipepart' parallel
fi

# Dask, by the Python package
by_dask() {
  PYTHONPATH=$PWD/packaging/python/src RIICHI_DESK=$lib/libriichi_desk.so timeout 120 \
    /usr/bin/python3 -B examples/python/answer_by_dask.py "$1" "$shelf/by-dask" 2 > "$room/said" 2>&1
  sha256sum < "$shelf/by-dask"
}
if /usr/bin/python3 -c 'import dask.distributed' 2> /dev/null; then
  [ -z "$all" ] || told 'Dask, with no first line of rules' "$(sha256sum < "$shelf/wanted")" "$(by_dask "$shelf/lines")"
  told 'Dask' "$wanted" "$(by_dask "$shelf/text")"
else
  skip Dask python3-distributed
fi
if /usr/bin/python3 -c 'import dask.dataframe' 2> /dev/null; then
  told 'a table in Dask' "$(sha256sum < "$shelf/wanted")" "$(PYTHONPATH=$PWD/packaging/python/src RIICHI_DESK=$lib/libriichi_desk.so \
    /usr/bin/python3 -B tests/table_by_dask.py "$shelf/lines" 2> "$room/said" | sha256sum)"
else
  skip 'a table in Dask' 'python3-dask or python3-pandas'
fi

# Slurm, an array of tasks on this machine alone, by daemons of its own in a folder of its own
slurm=$room/slurm daemons=()
start_slurm() {
  local host
  host=$(hostname -s)
  mkdir -p "$slurm"/{state,spool,job,munge}
  chmod 755 "$room" "$slurm" && chown munge "$slurm/munge"
  cat > "$slurm/slurm.conf" << END
ClusterName=try
SlurmctldHost=$host(127.0.0.1)
AuthType=auth/munge
AuthInfo=socket=$slurm/munge/socket
SlurmUser=root
SlurmdUser=root
StateSaveLocation=$slurm/state
SlurmdSpoolDir=$slurm/spool
SlurmctldPidFile=$slurm/ctld.pid
SlurmdPidFile=$slurm/d.pid
ProctrackType=proctrack/linuxproc
TaskPlugin=task/none
SelectType=select/cons_tres
SelectTypeParameters=CR_Core_Memory
MpiDefault=none
NodeName=$host NodeAddr=127.0.0.1 CPUs=$(nproc) RealMemory=2048 State=UNKNOWN
PartitionName=one Nodes=$host Default=YES State=UP
END
  export SLURM_CONF=$slurm/slurm.conf
  setpriv --reuid munge --regid munge --clear-groups /usr/sbin/munged --foreground --socket="$slurm/munge/socket" \
    --pid-file="$slurm/munge/pid" --log-file="$slurm/munge/log" --seed-file="$slurm/munge/seed" > "$slurm/munged.log" 2>&1 & daemons+=($!)
  for _ in $(seq 40); do [ -S "$slurm/munge/socket" ] && break; sleep 0.25; done
  slurmctld -D > "$slurm/ctld.log" 2>&1 & daemons+=($!)
  sleep 2
  slurmd -D -N "$host" > "$slurm/d.log" 2>&1 & daemons+=($!)
  for _ in $(seq 120); do sinfo -h -o %t 2> /dev/null | grep -q idle && return; sleep 0.5; done
  return 1
}
by_slurm() {
  local pieces
  cd "$slurm/job" || return
  split --lines=5000 --numeric-suffixes --suffix-length=4 "$shelf/lines" piece.
  pieces=$(ls | grep -c '^piece')
  PROGRAM=$program sbatch --array=0-$((pieces - 1))%2 "$OLDPWD/examples/slurm-array" > "$room/said" 2>&1
  for _ in $(seq 600); do [ "$(ls | grep -c 'answers$')" = "$pieces" ] && break; sleep 0.1; done
  cat piece.*.answers | sha256sum
}
if [ "$(id -u)" = 0 ] && has slurmctld slurmd sbatch && [ -x /usr/sbin/munged ]; then
  if start_slurm; then
    told "Slurm's array" "$(sha256sum < "$shelf/wanted")" "$(by_slurm)"
  else
    told "Slurm's daemons" idle "$(sinfo -h -o %t 2>&1)"
  fi
  kill "${daemons[@]}" 2> /dev/null
  wait "${daemons[@]}" 2> /dev/null
else
  skip "Slurm's array" 'slurm-wlm, munge or root'
fi
