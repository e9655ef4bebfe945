NAME        Gateway
OBJSENSE
    MAX
ROWS
 N  Worth
 L  Air
 G  Floor
 E  Tie
 L  Mast
COLUMNS
    North     Worth               3   Air                 1
    North     Tie                 1
    South     Worth               2   Air                 1
    South     Tie                -1   Mast                1
    East      Worth             0.5   Air               0.5
    East      Floor               1
    West      Worth              -1   Mast               -1
RHS
    RHS_V     Worth              -7   Air                24
    RHS_V     Floor              -2   Mast                6
RANGES
    RANGE     Air                30
    RANGE     Floor              12
    RANGE     Tie                 0
BOUNDS
 MI BOUND     East
 UP BOUND     West               10
 FX BOUND     South               0
 LO BOUND     South               0
 PL BOUND     South
ENDATA
