NAME          recorded
ROWS
 N  OBJROW
 L  air
 L  low
 E  tie
 L  span
 L  mast
COLUMNS
    a         OBJROW     -3.           air       1.          
    a         tie       1.             span      0.5         
    b         OBJROW     -2.           air       2.          
    b         tie        -1.           mast      1.          
    c         OBJROW    1.             air       1.          
    c         low       1.             span      1.          
    d         OBJROW     -0.25         air       0.5         
    d         mast      1.          
    e         OBJROW    4.             low       1.          
RHS
    RHS       OBJROW    10.            air       40.         
    RHS       low       14.            span      5.          
    RHS       mast      12.5        
RANGES
    RANGE     air       60.            low       20.         
    RANGE     span      9.          
BOUNDS
 LO BOUND     c          -2.        
 UP BOUND     c         3.          
 FX BOUND     e         2.5         
ENDATA
