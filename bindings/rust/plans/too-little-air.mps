* Two tunnels must send 5 ms each through 9 ms of air. What north sends is repeated once and takes air twice.
NAME too-little-air
ROWS
 N cost
 G north
 G south
 L air
COLUMNS
 n  cost 1  north 1
 n  air 2
 s  cost 1  south 1
 s  air 1
RHS
 RHS  north 5  south 5
 RHS  air 9
ENDATA
