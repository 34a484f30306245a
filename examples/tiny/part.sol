% The form of four fields, with destination 0 and the part of the block. Parts other than 0 and 1 are refused.
0 0 0 1
1 0 0 0.5
