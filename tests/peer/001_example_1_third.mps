* Problem:    001_example_1_third
* Class:      LP
* Rows:       3
* Columns:    2
* Non-zeros:  6
* Format:     Free MPS
*
NAME 001_example_1_third
ROWS
 N z
 L constraints[1]
 L constraints[2]
COLUMNS
 x[1] z 6 constraints[1] 4
 x[1] constraints[2] 10
 x[2] z 4 constraints[1] 5
 x[2] constraints[2] 4
RHS
 RHS1 constraints[1] 3600 constraints[2] 3600
ENDATA
