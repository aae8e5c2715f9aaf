#!/bin/sh
# A Slurm job array of parts of a job of plift-tiles; the same line again decides what is left:
#
#     sbatch --array=1-64 tiles/plift-tiles.sbatch DIR
#
# DIR is a folder that all machines see. plift-tiles is the one of the folder where sbatch is called, else that on the PATH.
#SBATCH --job-name=plift
#SBATCH --output=plift-%A-%a.out
#SBATCH --cpus-per-task=1
#SBATCH --mem=300M
#SBATCH --time=04:00:00
#SBATCH --requeue
tiles=plift-tiles
[ ! -x ./plift-tiles ] || tiles=./plift-tiles
part=$((SLURM_ARRAY_TASK_ID - SLURM_ARRAY_TASK_MIN + 1))/$SLURM_ARRAY_TASK_COUNT
exec "$tiles" work "$1" --part "$part"
