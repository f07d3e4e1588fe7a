"""What ./test, ./prove and .ci/run stand on: jobs, their counts, and how they are run side by side."""
