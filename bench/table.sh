#!/usr/bin/env bash
# Measures a table of lines: rounds a second (a look and a put each) over 65,536 lines, on one thread
# and on four, the best of five runs, and the memory while the largest table is made. Run it on a
# machine that does nothing else. It needs `rt` on the path, and python3 for the memory.
set -euo pipefail
cd "$(dirname "${BASH_SOURCE[0]}")/../crates/arimaa_table_bench"
rt run >/dev/null
for _ in 1 2 3 4 5; do
    out/arimaa_table_bench timed
done | awk '
    /^bytes a line/ { bytes = $4; run = 0 }
    /^rounds:/ && $5 != 0 { strange += $5 }
    /^rounds a second/ { if ($4 > best[run]) best[run] = $4; run++ }
    END {
        print bytes, "bytes a line"
        print best[0], "rounds a second on one thread"
        print best[1], "rounds a second on four threads"
        print strange + 0, "strange lines"
    }
'
python3 - <<'PYTHON'
import resource
import subprocess

subprocess.run(["out/arimaa_table_bench", "largest"], check=True, stdout=subprocess.DEVNULL)
peak = resource.getrusage(resource.RUSAGE_CHILDREN).ru_maxrss * 1024
print(f"{peak} bytes at most while 262144 lines are made")
PYTHON
