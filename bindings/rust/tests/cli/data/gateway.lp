\ The same as highs.mps, as CPLEX-LP.
Maximize
 Worth: 3 North + 2 South + 0.5 East - West + 7
Subject To
 Air: -6 <= North + South + 0.5 East <= 24
 Floor: -2 <= East <= 10
 Tie: North - South = 0
 Mast: South - West <= 6
Bounds
 East free
 0 <= West <= 10
End
