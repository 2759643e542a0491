#!/bin/sh
# One job of an array of Slurm. `sbatch --array=1-N array.sh DIR` judges the N parts of the run that is laid out in DIR.
#SBATCH --job-name=crashbpf
#SBATCH --cpus-per-task=1
exec "$1/run_part" "$1" "$SLURM_ARRAY_TASK_ID"
