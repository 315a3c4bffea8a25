#!/usr/bin/env bash
# Times the making of a job for a file of 64 MiB, shape 4 3, beside the SHA-256 that it needs: two passes for the secrets and one
# over the shares, which have four thirds of the file's bytes: 3.33 passes. And the memory that it takes at most.
. "$(dirname "$0")/build.sh"
build upload cd_base upload_job
python3 - "$program" <<'PY'
import resource, subprocess, sys
told = subprocess.run([sys.argv[1]], capture_output=True, text=True, check=True).stdout
job, hashed = (float(word) for word in told.split()[:2])
size = 67108864
peak = resource.getrusage(resource.RUSAGE_CHILDREN).ru_maxrss * 1024 - size
print(f"a job of 64 MiB: {job / 1e6:.2f} s; SHA-256 of the file once: {hashed / 1e6:.2f} s; {job / (hashed * 10 / 3):.2f} times the 3.33 passes that it needs")
print(f"at most {peak / size:.2f} bytes of memory beside the file for each of its bytes")
PY
