% BLOCK PERIOD: blocks 0 and 1 are mined in period 0, block 2 in period 1, and block 3 is not mined.
0 0
1 0
2 1
