* Two tunnels share 9 ms of air. What north sends is repeated once and takes air twice.
NAME two-tunnels
ROWS
 N cost
 L air
COLUMNS
 north  cost -6  air 2
 south  cost -2  air 1
RHS
 RHS  air 9
ENDATA
