% In period 0 these blocks take 2 + 2 + 1 of resource 0, and 4 is the limit. Nothing is mined in period 1.
0 0
1 0
3 0
