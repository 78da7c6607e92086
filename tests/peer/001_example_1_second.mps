* Problem:    001_example_1_second
* Class:      LP
* Rows:       3
* Columns:    2
* Non-zeros:  6
* Format:     Free MPS
*
NAME 001_example_1_second
ROWS
 N z
 L con1
 L con2
COLUMNS
 x1 z 6 con1 4
 x1 con2 10
 x2 z 4 con1 5
 x2 con2 4
RHS
 RHS1 con1 3600 con2 3600
ENDATA
