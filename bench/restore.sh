#!/usr/bin/env bash
# Times a restore of 64 MiB, shape 4 3, over replies that were prepared, beside the SHA-256 that it needs: one pass over the shares
# of k clouds, which have as many bytes as the file, and two to open the secrets: 3 passes.
. "$(dirname "$0")/build.sh"
build restore cd_base file_recipe recipe restore_job tests_clients
python3 - "$program" <<'PY'
import subprocess, sys
told = subprocess.run([sys.argv[1]], capture_output=True, text=True, check=True).stdout
whole, hashed = (float(word) for word in told.split()[:2])
same = told.split()[2]
print(f"a restore of 64 MiB: {whole / 1e6:.2f} s; SHA-256 of the file once: {hashed / 1e6:.2f} s; {whole / (hashed * 3):.2f} times the 3 passes that it needs; the file came back: {same}")
PY
