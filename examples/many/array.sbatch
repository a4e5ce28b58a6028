#!/bin/bash
# A SLURM job array over the jobs that `make` wrote in the folder of the submission, here a hundred of them.
#SBATCH --job-name=mpsim
#SBATCH --array=1-100
#SBATCH --cpus-per-task=1
#SBATCH --mem=500M
#SBATCH --time=00:10:00
#SBATCH --output=/dev/null
#SBATCH --requeue
# MPSIM, the program, and MANY, this folder, stand in the environment of the submission.
cd "$SLURM_SUBMIT_DIR" || exit 1
jobs=(runs/*.par)
job=${jobs[SLURM_ARRAY_TASK_ID - 1]}
exec "$MANY/run" "$MPSIM" "${job%.par}"
