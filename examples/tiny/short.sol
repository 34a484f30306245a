% All is in order, but nothing is mined in period 1.
0 0
1 0
