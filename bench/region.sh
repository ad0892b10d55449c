#!/usr/bin/env bash
# Measures a region: placings and finds a second at 1,000, 30,000 and 262,144 live positions, the
# best of five runs, and the memory of the largest region. Run it on a machine that does nothing
# else. It needs `rt` on the path, and python3 for the memory.
set -euo pipefail
cd "$(dirname "${BASH_SOURCE[0]}")/../crates/arimaa_region_bench"
rt run >/dev/null
for _ in 1 2 3 4 5; do
    out/arimaa_region_bench time
done | awk '
    { if ($3 > new[$1]) new[$1] = $3; if ($6 > found[$1]) found[$1] = $6 }
    END { for (live in new) print live, "live:", new[live], "new and", found[live], "found a second" }
' | sort -n
python3 - <<'PYTHON'
import resource
import subprocess

subprocess.run(["out/arimaa_region_bench", "room"], check=True, stdout=subprocess.DEVNULL)
peak = resource.getrusage(resource.RUSAGE_CHILDREN).ru_maxrss * 1024
print(f"{peak} bytes at most for 1048576 places: {peak / 1048576:.1f} bytes a place")
PYTHON
