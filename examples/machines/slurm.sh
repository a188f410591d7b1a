#!/bin/bash
# One round of one problem as a Slurm array, and a job that merges behind it: slurm.sh FILE CERT PARTS SECONDS [sbatch's options]
# The open leaves of CERT are dealt to PARTS parts, each of which is a task of the array and searches for SECONDS. The second job runs
# when all tasks have ended, however they ended, and leaves out what is lost. FILE and CERT lie where all machines see them.
set -eu
program=$(printf %q "${WCSPSOLVE:-wcspsolve}")
# (a name of this round's own for each part, so that no other file is touched)
file=$(printf %q "$1") certificate=$(printf %q "$2") round=$(printf %q "$2.round$$") parts=$3 seconds=$4
shift 4
array=$(sbatch --parsable --array=1-"$parts" --time=$((seconds / 60 + 10)) "$@" --wrap \
  "$program rebase $file $certificate $round.part\$SLURM_ARRAY_TASK_ID --part \$SLURM_ARRAY_TASK_ID --parts $parts --seconds $seconds; [ \$? -le 2 ]")
sbatch --parsable --dependency=afterany:"$array" "$@" --wrap \
  "set --; for i in \$(seq 1 $parts); do p=$round.part\$i; [ -e \"\$p\" ] && $program check $file \"\$p\" > /dev/null && set -- \"\$@\" \"\$p\"; done
if [ \$# = 0 ]; then echo 'all $parts parts are lost' >&2; exit 1; fi
$program merge $file $certificate \"\$@\"; ended=\$?; rm -f $round.part*; exit \$ended"
