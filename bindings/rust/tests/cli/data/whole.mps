NAME t
ROWS
 N  obj
 L  c1
COLUMNS
    x  obj 1.0 c1 1.0
    M1 'MARKER' 'INTORG'
    i  obj -1.0 c1 1.0
    M1 'MARKER' 'INTEND'
RHS
    RHS c1 100 obj -7
BOUNDS
 UP BND x -5
ENDATA
