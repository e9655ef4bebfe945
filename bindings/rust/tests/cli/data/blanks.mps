* Fixed columns: names with blanks, a set without a name, two objectives.
NAME          BLANK NAMES
ROWS
 N  COST
 N  OTHER
 L  AIR ONE
 G  LOW END
 E  SAME
COLUMNS
    TUNNEL A  COST              -2.0   AIR ONE            1.0
    TUNNEL A  SAME               1.0   OTHER              9.0
    TUNNEL B  COST              -3.0   AIR ONE            2.0
    TUNNEL B  LOW END            1.0   SAME              -1.0
RHS
              AIR ONE           30.0   LOW END           -4.0
RANGES
    RNG       AIR ONE           35.0
BOUNDS
 LO BND       TUNNEL A           0.0
 MI BND       TUNNEL B
 UP BND       TUNNEL B          50.0
 LO BND       TUNNEL B           0.0
 PL BND       TUNNEL B
ENDATA
