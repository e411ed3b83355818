"""How long networkx and igraph take to find the vertex connectivity of the benchmark's standing network, for docs/SPEED.md.

    python3 bench/vertex_connectivity.py [STATIONS ...]

Of the two it times those that Python finds (Debian's packages python3-networkx and python3-igraph). It answers the same question as `weak`: the network
stands at level k exactly where its vertex connectivity is k or more."""
import importlib.util
import sys
import time


def standing_network(stations):
    """Four lines for each station, to the next four round a ring, as rust/src/bin/benchmark.rs has it."""
    return [(station, (station + by) % stations) for station in range(stations) for by in range(1, 5)]


def by_networkx(lines):
    import networkx

    network = networkx.Graph(lines)
    return lambda: networkx.node_connectivity(network)


def by_igraph(lines):
    import igraph

    network = igraph.Graph(edges=lines)
    return network.vertex_connectivity


def main(sizes):
    for name, prepared in (("networkx", by_networkx), ("igraph", by_igraph)):
        if importlib.util.find_spec(name) is None:
            print(f"{name}: not there")
            continue
        for stations in sizes:
            ask = prepared(standing_network(stations))
            began = time.perf_counter()
            connectivity = ask()
            print(f"{name}: {stations} stations, connectivity {connectivity}, {time.perf_counter() - began:.3f} s", flush=True)


main([int(size) for size in sys.argv[1:]] or [64, 200, 512, 1024])
