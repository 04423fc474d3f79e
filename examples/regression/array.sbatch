#!/usr/bin/env bash
#SBATCH --job-name=regression
#SBATCH --output=/dev/null
# An array of jobs under Slurm, submitted from this folder: sbatch --array=1-200 array.sbatch DIRECTORY. All nodes must see DIRECTORY. The number
# of a task is the seed. DIRECTORY/SEED/line is its line of a job log; `cat log_header DIRECTORY/*/line` is one that junit reads.
began=$(date +%s.%3N)
"$SLURM_SUBMIT_DIR/job" "$SLURM_ARRAY_TASK_ID" "$1"
status=$?
ended=$(date +%s.%3N)
seconds=$(awk -v began="$began" -v ended="$ended" 'BEGIN { printf "%.3f", ended - began }')
printf '%s\t%s\t%s\t%s\t0\t0\t%s\t0\t%s\n' "$SLURM_ARRAY_TASK_ID" "$(hostname)" "$began" "$seconds" "$status" \
  "job $SLURM_ARRAY_TASK_ID $1" >"$1/$SLURM_ARRAY_TASK_ID/line"
exit "$status"
