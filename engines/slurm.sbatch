#!/bin/bash
# An experiment as a Slurm job array, on a file system that the nodes share (docs/many-machines.md):
#
#     sbatch --array=0-19 --export=ALL,MODEL=clinic.gps,N=20,OUT=$PWD/out engines/slurm.sbatch
#     sbatch --dependency=afterok:JOBID --wrap 'cat out/*.csv | planner summary > study.txt'
#
# PLANNER is the program, ENGINES the folder of shard.sh: `planner` on the path, and engines below where sbatch was called, if they aren't
# set. --requeue: a share whose node fails is queued again. After anything else say the first line again: shares that stand are passed over.
#SBATCH --job-name=gpssw
#SBATCH --ntasks=1
#SBATCH --cpus-per-task=1
#SBATCH --mem=256M
#SBATCH --time=01:00:00
#SBATCH --requeue
#SBATCH --output=%x-%A_%a.log
exec sh "${ENGINES:-$SLURM_SUBMIT_DIR/engines}/shard.sh" "$MODEL" "$SLURM_ARRAY_TASK_ID" "$N" "$OUT"
