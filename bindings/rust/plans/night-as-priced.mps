* The frost night: 40 radio units share the air of a quarter hour. The numbers are made up for this repository.
* alarm.U and soil.U are the milliseconds that unit U gets for its alarm and for its soil reports.
* An alarm wants as much as its upper bound, soil reports as much as their backlog row.
* air: a tenth of the quarter hour, 90,000 ms, for all. mast.F: what the mast of field F can take.
* Field D lies behind the hill: its messages are repeated once and take air twice.
* Prices of that night: 1 a millisecond, and 1 more for each quarter hour that a message has waited.
NAME night-as-priced
ROWS
 N cost
 L air
 L mast.A
 L mast.B
 L mast.C
 L mast.D
 L backlog.A01
 L backlog.A02
 L backlog.A03
 L backlog.A04
 L backlog.A05
 L backlog.A06
 L backlog.A07
 L backlog.A08
 L backlog.A09
 L backlog.A10
 L backlog.B01
 L backlog.B02
 L backlog.B03
 L backlog.B04
 L backlog.B05
 L backlog.B06
 L backlog.B07
 L backlog.B08
 L backlog.B09
 L backlog.B10
 L backlog.C01
 L backlog.C02
 L backlog.C03
 L backlog.C04
 L backlog.C05
 L backlog.C06
 L backlog.C07
 L backlog.C08
 L backlog.C09
 L backlog.C10
 L backlog.D01
 L backlog.D02
 L backlog.D03
 L backlog.D04
 L backlog.D05
 L backlog.D06
 L backlog.D07
 L backlog.D08
 L backlog.D09
 L backlog.D10
COLUMNS
 alarm.A01  cost     -1  air         1
 alarm.A01  mast.A    1
 soil.A01   cost     -9  air         1
 soil.A01   mast.A    1  backlog.A01 1
 alarm.A02  cost     -7  air         1
 alarm.A02  mast.A    1
 soil.A02   cost     -9  air         1
 soil.A02   mast.A    1  backlog.A02 1
 alarm.A03  cost     -1  air         1
 alarm.A03  mast.A    1
 soil.A03   cost     -9  air         1
 soil.A03   mast.A    1  backlog.A03 1
 soil.A04   cost     -9  air         1
 soil.A04   mast.A    1  backlog.A04 1
 soil.A05   cost     -3  air         1
 soil.A05   mast.A    1  backlog.A05 1
 soil.A06   cost     -7  air         1
 soil.A06   mast.A    1  backlog.A06 1
 soil.A07   cost     -9  air         1
 soil.A07   mast.A    1  backlog.A07 1
 soil.A08   cost     -8  air         1
 soil.A08   mast.A    1  backlog.A08 1
 soil.A09   cost     -3  air         1
 soil.A09   mast.A    1  backlog.A09 1
 soil.A10   cost     -3  air         1
 soil.A10   mast.A    1  backlog.A10 1
 alarm.B01  cost     -1  air         1
 alarm.B01  mast.B    1
 soil.B01   cost     -3  air         1
 soil.B01   mast.B    1  backlog.B01 1
 alarm.B02  cost     -1  air         1
 alarm.B02  mast.B    1
 soil.B02   cost     -9  air         1
 soil.B02   mast.B    1  backlog.B02 1
 alarm.B03  cost     -1  air         1
 alarm.B03  mast.B    1
 soil.B03   cost     -4  air         1
 soil.B03   mast.B    1  backlog.B03 1
 alarm.B04  cost     -4  air         1
 alarm.B04  mast.B    1
 soil.B04   cost     -6  air         1
 soil.B04   mast.B    1  backlog.B04 1
 alarm.B05  cost     -1  air         1
 alarm.B05  mast.B    1
 soil.B05   cost     -3  air         1
 soil.B05   mast.B    1  backlog.B05 1
 soil.B06   cost     -8  air         1
 soil.B06   mast.B    1  backlog.B06 1
 soil.B07   cost     -3  air         1
 soil.B07   mast.B    1  backlog.B07 1
 soil.B08   cost     -5  air         1
 soil.B08   mast.B    1  backlog.B08 1
 soil.B09   cost     -4  air         1
 soil.B09   mast.B    1  backlog.B09 1
 soil.B10   cost     -4  air         1
 soil.B10   mast.B    1  backlog.B10 1
 alarm.C01  cost     -1  air         1
 alarm.C01  mast.C    1
 soil.C01   cost     -3  air         1
 soil.C01   mast.C    1  backlog.C01 1
 alarm.C02  cost     -1  air         1
 alarm.C02  mast.C    1
 soil.C02   cost     -6  air         1
 soil.C02   mast.C    1  backlog.C02 1
 alarm.C03  cost     -1  air         1
 alarm.C03  mast.C    1
 soil.C03   cost     -5  air         1
 soil.C03   mast.C    1  backlog.C03 1
 alarm.C04  cost     -1  air         1
 alarm.C04  mast.C    1
 soil.C04   cost     -4  air         1
 soil.C04   mast.C    1  backlog.C04 1
 alarm.C05  cost     -1  air         1
 alarm.C05  mast.C    1
 soil.C05   cost     -6  air         1
 soil.C05   mast.C    1  backlog.C05 1
 alarm.C06  cost     -1  air         1
 alarm.C06  mast.C    1
 soil.C06   cost     -8  air         1
 soil.C06   mast.C    1  backlog.C06 1
 alarm.C07  cost     -5  air         1
 alarm.C07  mast.C    1
 soil.C07   cost     -7  air         1
 soil.C07   mast.C    1  backlog.C07 1
 alarm.C08  cost     -1  air         1
 alarm.C08  mast.C    1
 soil.C08   cost     -8  air         1
 soil.C08   mast.C    1  backlog.C08 1
 alarm.C09  cost     -1  air         1
 alarm.C09  mast.C    1
 soil.C09   cost     -8  air         1
 soil.C09   mast.C    1  backlog.C09 1
 soil.C10   cost     -4  air         1
 soil.C10   mast.C    1  backlog.C10 1
 soil.D01   cost     -7  air         2
 soil.D01   mast.D    1  backlog.D01 1
 soil.D02   cost     -9  air         2
 soil.D02   mast.D    1  backlog.D02 1
 alarm.D03  cost     -1  air         2
 alarm.D03  mast.D    1
 soil.D03   cost     -3  air         2
 soil.D03   mast.D    1  backlog.D03 1
 alarm.D04  cost     -1  air         2
 alarm.D04  mast.D    1
 soil.D04   cost     -7  air         2
 soil.D04   mast.D    1  backlog.D04 1
 alarm.D05  cost     -3  air         2
 alarm.D05  mast.D    1
 soil.D05   cost     -8  air         2
 soil.D05   mast.D    1  backlog.D05 1
 alarm.D06  cost     -1  air         2
 alarm.D06  mast.D    1
 soil.D06   cost     -5  air         2
 soil.D06   mast.D    1  backlog.D06 1
 alarm.D07  cost     -1  air         2
 alarm.D07  mast.D    1
 soil.D07   cost     -8  air         2
 soil.D07   mast.D    1  backlog.D07 1
 alarm.D08  cost     -1  air         2
 alarm.D08  mast.D    1
 soil.D08   cost     -7  air         2
 soil.D08   mast.D    1  backlog.D08 1
 alarm.D09  cost     -1  air         2
 alarm.D09  mast.D    1
 soil.D09   cost     -3  air         2
 soil.D09   mast.D    1  backlog.D09 1
 alarm.D10  cost     -1  air         2
 alarm.D10  mast.D    1
 soil.D10   cost     -9  air         2
 soil.D10   mast.D    1  backlog.D10 1
RHS
 RHS  air          90000
 RHS  mast.A       30000
 RHS  mast.B       24000
 RHS  mast.C       24000
 RHS  mast.D       16000
 RHS  backlog.A01   2010
 RHS  backlog.A02   1900
 RHS  backlog.A03   2370
 RHS  backlog.A04   3910
 RHS  backlog.A05   2170
 RHS  backlog.A06   4250
 RHS  backlog.A07   2520
 RHS  backlog.A08   4110
 RHS  backlog.A09   3290
 RHS  backlog.A10   1980
 RHS  backlog.B01   3950
 RHS  backlog.B02   2370
 RHS  backlog.B03   2920
 RHS  backlog.B04   2380
 RHS  backlog.B05   3360
 RHS  backlog.B06   3300
 RHS  backlog.B07   1880
 RHS  backlog.B08   3410
 RHS  backlog.B09   4510
 RHS  backlog.B10   4550
 RHS  backlog.C01   2650
 RHS  backlog.C02   2100
 RHS  backlog.C03   2580
 RHS  backlog.C04   3000
 RHS  backlog.C05   4010
 RHS  backlog.C06   3250
 RHS  backlog.C07   4190
 RHS  backlog.C08   3330
 RHS  backlog.C09   3520
 RHS  backlog.C10   2960
 RHS  backlog.D01   2270
 RHS  backlog.D02   4150
 RHS  backlog.D03   4610
 RHS  backlog.D04   3580
 RHS  backlog.D05   2210
 RHS  backlog.D06   2780
 RHS  backlog.D07   3140
 RHS  backlog.D08   3100
 RHS  backlog.D09   2540
 RHS  backlog.D10   1830
BOUNDS
 UP BND  alarm.A01    810
 UP BND  alarm.A02    480
 UP BND  alarm.A03    725
 UP BND  alarm.B01   1010
 UP BND  alarm.B02    950
 UP BND  alarm.B03    310
 UP BND  alarm.B04    390
 UP BND  alarm.B05    570
 UP BND  alarm.C01    920
 UP BND  alarm.C02    550
 UP BND  alarm.C03    330
 UP BND  alarm.C04   1110
 UP BND  alarm.C05    520
 UP BND  alarm.C06    380
 UP BND  alarm.C07    920
 UP BND  alarm.C08    420
 UP BND  alarm.C09   1070
 UP BND  alarm.D03    840
 UP BND  alarm.D04   1170
 UP BND  alarm.D05    950
 UP BND  alarm.D06    630
 UP BND  alarm.D07    740
 UP BND  alarm.D08   1090
 UP BND  alarm.D09    880
 UP BND  alarm.D10   1110
ENDATA
