Problem:    recorded
Rows:       5
Columns:    5
Non-zeros:  12
Status:     OPTIMAL
Objective:  R0000000 = -44.5 (MINimum)

   No.   Row name   St   Activity     Lower bound   Upper bound    Marginal
------ ------------ -- ------------- ------------- ------------- -------------
     1 air          B           35.5           -20            40 
     2 low          B            0.5            -6            14 
     3 tie          NS             0             0             =            -3 
     4 span         B           4.25            -4             5 
     5 mast         NU          12.5                        12.5            -5 

   No. Column name  St   Activity     Lower bound   Upper bound    Marginal
------ ------------ -- ------------- ------------- ------------- -------------
     1 a            B           12.5             0               
     2 b            B           12.5             0         1e+30 
     3 c            NL            -2            -2             3             1 
     4 d            NL             0             0                        4.75 
     5 e            NS           2.5           2.5             =             4 

Karush-Kuhn-Tucker optimality conditions:

KKT.PE: max.abs.err = 0.00e+00 on row 0
        max.rel.err = 0.00e+00 on row 0
        High quality

KKT.PB: max.abs.err = 0.00e+00 on row 0
        max.rel.err = 0.00e+00 on row 0
        High quality

KKT.DE: max.abs.err = 0.00e+00 on column 0
        max.rel.err = 0.00e+00 on column 0
        High quality

KKT.DB: max.abs.err = 0.00e+00 on row 0
        max.rel.err = 0.00e+00 on row 0
        High quality

End of output
