* Problem:    recorded
* Class:      LP
* Rows:       5
* Columns:    5
* Non-zeros:  12
* Format:     Fixed MPS
*
NAME          recorded
ROWS
 N  R0000000
 E  air
 E  low
 E  tie
 E  span
 L  mast
COLUMNS
    a         R0000000            -3   air                  1
    a         tie                  1   span               0.5
    b         R0000000            -2   air                  2
    b         tie                 -1   mast                 1
    c         R0000000             1   air                  1
    c         low                  1   span                 1
    d         R0000000         -0.25   air                0.5
    d         mast                 1
    e         R0000000             4   low                  1
RHS
    RHS1      R0000000            10   air                -20
    RHS1      low                 -6   span                -4
    RHS1      mast              12.5
RANGES
    RNG1      air                 60   low                 20
    RNG1      span                 9
BOUNDS
 UP BND1      b                 1E30
 LO BND1      c                   -2
 UP BND1      c                    3
 FX BND1      e                  2.5
ENDATA
