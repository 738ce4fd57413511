#!/usr/bin/env bash
#SBATCH --job-name=syswcet
#SBATCH --cpus-per-task=1
#SBATCH --mem=4G
# Runs one command of a plan that tools/analyse wrote: sbatch --array=1-N share/slurm/certify.sh FOLDER/plan, N commands.
# The folder has to be one that every node sees under the same name.
set -eu
plan=${1:?the plan that tools/analyse --plan wrote}
command=$(sed -n "${SLURM_ARRAY_TASK_ID:?runs as a Slurm array}p" "$plan")
[ -n "$command" ] || { echo "$plan has no line $SLURM_ARRAY_TASK_ID" >&2; exit 1; }
exec bash -c "$command"
