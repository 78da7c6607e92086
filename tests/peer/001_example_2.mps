* Problem:    001_example_2
* Class:      LP
* Rows:       7
* Columns:    3
* Non-zeros:  15
* Format:     Free MPS
*
NAME 001_example_2
ROWS
 N z
 L stock[1]
 L stock[2]
 L stock[3]
 G demand[1]
 G demand[2]
 G demand[3]
COLUMNS
 x[1] z 23 stock[1] 1
 x[1] stock[2] 1 stock[3] 1
 x[1] demand[1] 1 demand[2] 1
 x[1] demand[3] 1
 x[2] z 32 stock[2] 1
 x[2] stock[3] 1 demand[2] 1
 x[2] demand[3] 1
 x[3] z 36 stock[3] 1
 x[3] demand[3] 1
RHS
 RHS1 stock[1] 100 stock[2] 160
 RHS1 stock[3] 230 demand[1] 60
 RHS1 demand[2] 130 demand[3] 180
ENDATA
