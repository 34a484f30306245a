% Block 2 is mined, and its predecessors are not. Nothing is mined in period 1, which wants 1 of resource 0 at least.
2 0
