"""networkx's stoer_wagner on the lists that `bench lists` wrote: rows of the same table."""
import pathlib
import statistics
import sys
import time

import networkx

RUNS = int(sys.argv[2]) if len(sys.argv) > 2 else 101

for path in sorted(pathlib.Path(sys.argv[1]).glob("*.txt")):
    name, figures, *rows = path.read_text().splitlines()
    n, value, ours = figures.split()
    graph = networkx.Graph()
    graph.add_nodes_from(range(int(n)))
    for row in rows:
        a, b, w = map(int, row.split())
        before = graph[a][b]["weight"] if graph.has_edge(a, b) else 0
        graph.add_edge(a, b, weight=before + w)
    times = []
    for _ in range(RUNS):
        begin = time.process_time()
        least, (side, _other) = networkx.stoer_wagner(graph)
        times.append((time.process_time() - begin) * 1e6)
    side = set(side)
    across = sum(w for a, b, w in graph.edges(data="weight") if (a in side) != (b in side))
    if least != int(value) or across != int(value):
        sys.exit(f"bench: {name}: networkx gives {least} with {across} across, ours {value}")
    times.sort()
    print(f"| {name} | {value} | networkx stoer_wagner | {statistics.median(times):.1f}"
          f" | {times[len(times) // 10]:.1f} to {times[len(times) * 9 // 10]:.1f} | {statistics.median(times) / float(ours):.2f} |")
