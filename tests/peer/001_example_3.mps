* Problem:    001_example_3
* Class:      LP
* Rows:       28
* Columns:    60
* Non-zeros:  240
* Format:     Free MPS
*
NAME 001_example_3
ROWS
 N z
 G demand[1,1]
 G demand[1,2]
 G demand[1,3]
 G demand[2,1]
 G demand[2,2]
 G demand[2,3]
 G demand[3,1]
 G demand[3,2]
 G demand[3,3]
 G demand[4,1]
 G demand[4,2]
 G demand[4,3]
 G demand[5,1]
 G demand[5,2]
 G demand[5,3]
 L time[1,1]
 L time[1,2]
 L time[1,3]
 L time[2,1]
 L time[2,2]
 L time[2,3]
 L time[3,1]
 L time[3,2]
 L time[3,3]
 L time[4,1]
 L time[4,2]
 L time[4,3]
COLUMNS
 x[1,1,1] z 6.28 demand[1,1] 1
 x[1,1,1] demand[1,2] 1 demand[1,3] 1
 x[1,1,1] time[1,1] 6.28
 x[2,1,1] z 4.24 demand[2,1] 1
 x[2,1,1] demand[2,2] 1 demand[2,3] 1
 x[2,1,1] time[1,1] 4.24
 x[3,1,1] z 5.27 demand[3,1] 1
 x[3,1,1] demand[3,2] 1 demand[3,3] 1
 x[3,1,1] time[1,1] 5.27
 x[4,1,1] z 100 demand[4,1] 1
 x[4,1,1] demand[4,2] 1 demand[4,3] 1
 x[4,1,1] time[1,1] 100
 x[5,1,1] z 100 demand[5,1] 1
 x[5,1,1] demand[5,2] 1 demand[5,3] 1
 x[5,1,1] time[1,1] 100
 x[1,1,2] z 6.28 demand[1,2] 1
 x[1,1,2] demand[1,3] 1 time[1,2] 6.28
 x[2,1,2] z 4.24 demand[2,2] 1
 x[2,1,2] demand[2,3] 1 time[1,2] 4.24
 x[3,1,2] z 5.27 demand[3,2] 1
 x[3,1,2] demand[3,3] 1 time[1,2] 5.27
 x[4,1,2] z 100 demand[4,2] 1
 x[4,1,2] demand[4,3] 1 time[1,2] 100
 x[5,1,2] z 100 demand[5,2] 1
 x[5,1,2] demand[5,3] 1 time[1,2] 100
 x[1,1,3] z 6.28 demand[1,3] 1
 x[1,1,3] time[1,3] 6.28
 x[2,1,3] z 4.24 demand[2,3] 1
 x[2,1,3] time[1,3] 4.24
 x[3,1,3] z 5.27 demand[3,3] 1
 x[3,1,3] time[1,3] 5.27
 x[4,1,3] z 100 demand[4,3] 1
 x[4,1,3] time[1,3] 100
 x[5,1,3] z 100 demand[5,3] 1
 x[5,1,3] time[1,3] 100
 x[1,2,1] z 3.06 demand[1,1] 1
 x[1,2,1] demand[1,2] 1 demand[1,3] 1
 x[1,2,1] time[2,1] 3.06
 x[2,2,1] z 100 demand[2,1] 1
 x[2,2,1] demand[2,2] 1 demand[2,3] 1
 x[2,2,1] time[2,1] 100
 x[3,2,1] z 100 demand[3,1] 1
 x[3,2,1] demand[3,2] 1 demand[3,3] 1
 x[3,2,1] time[2,1] 100
 x[4,2,1] z 3.31 demand[4,1] 1
 x[4,2,1] demand[4,2] 1 demand[4,3] 1
 x[4,2,1] time[2,1] 3.31
 x[5,2,1] z 100 demand[5,1] 1
 x[5,2,1] demand[5,2] 1 demand[5,3] 1
 x[5,2,1] time[2,1] 100
 x[1,2,2] z 3.06 demand[1,2] 1
 x[1,2,2] demand[1,3] 1 time[2,2] 3.06
 x[2,2,2] z 100 demand[2,2] 1
 x[2,2,2] demand[2,3] 1 time[2,2] 100
 x[3,2,2] z 100 demand[3,2] 1
 x[3,2,2] demand[3,3] 1 time[2,2] 100
 x[4,2,2] z 3.31 demand[4,2] 1
 x[4,2,2] demand[4,3] 1 time[2,2] 3.31
 x[5,2,2] z 100 demand[5,2] 1
 x[5,2,2] demand[5,3] 1 time[2,2] 100
 x[1,2,3] z 3.06 demand[1,3] 1
 x[1,2,3] time[2,3] 3.06
 x[2,2,3] z 100 demand[2,3] 1
 x[2,2,3] time[2,3] 100
 x[3,2,3] z 100 demand[3,3] 1
 x[3,2,3] time[2,3] 100
 x[4,2,3] z 3.31 demand[4,3] 1
 x[4,2,3] time[2,3] 3.31
 x[5,2,3] z 100 demand[5,3] 1
 x[5,2,3] time[2,3] 100
 x[1,3,1] z 100 demand[1,1] 1
 x[1,3,1] demand[1,2] 1 demand[1,3] 1
 x[1,3,1] time[3,1] 100
 x[2,3,1] z 4.97 demand[2,1] 1
 x[2,3,1] demand[2,2] 1 demand[2,3] 1
 x[2,3,1] time[3,1] 4.97
 x[3,3,1] z 100 demand[3,1] 1
 x[3,3,1] demand[3,2] 1 demand[3,3] 1
 x[3,3,1] time[3,1] 100
 x[4,3,1] z 100 demand[4,1] 1
 x[4,3,1] demand[4,2] 1 demand[4,3] 1
 x[4,3,1] time[3,1] 100
 x[5,3,1] z 3.29 demand[5,1] 1
 x[5,3,1] demand[5,2] 1 demand[5,3] 1
 x[5,3,1] time[3,1] 3.29
 x[1,3,2] z 100 demand[1,2] 1
 x[1,3,2] demand[1,3] 1 time[3,2] 100
 x[2,3,2] z 4.97 demand[2,2] 1
 x[2,3,2] demand[2,3] 1 time[3,2] 4.97
 x[3,3,2] z 100 demand[3,2] 1
 x[3,3,2] demand[3,3] 1 time[3,2] 100
 x[4,3,2] z 100 demand[4,2] 1
 x[4,3,2] demand[4,3] 1 time[3,2] 100
 x[5,3,2] z 3.29 demand[5,2] 1
 x[5,3,2] demand[5,3] 1 time[3,2] 3.29
 x[1,3,3] z 100 demand[1,3] 1
 x[1,3,3] time[3,3] 100
 x[2,3,3] z 4.97 demand[2,3] 1
 x[2,3,3] time[3,3] 4.97
 x[3,3,3] z 100 demand[3,3] 1
 x[3,3,3] time[3,3] 100
 x[4,3,3] z 100 demand[4,3] 1
 x[4,3,3] time[3,3] 100
 x[5,3,3] z 3.29 demand[5,3] 1
 x[5,3,3] time[3,3] 3.29
 x[1,4,1] z 6.07 demand[1,1] 1
 x[1,4,1] demand[1,2] 1 demand[1,3] 1
 x[1,4,1] time[4,1] 6.07
 x[2,4,1] z 5.05 demand[2,1] 1
 x[2,4,1] demand[2,2] 1 demand[2,3] 1
 x[2,4,1] time[4,1] 5.05
 x[3,4,1] z 5.27 demand[3,1] 1
 x[3,4,1] demand[3,2] 1 demand[3,3] 1
 x[3,4,1] time[4,1] 5.27
 x[4,4,1] z 6.33 demand[4,1] 1
 x[4,4,1] demand[4,2] 1 demand[4,3] 1
 x[4,4,1] time[4,1] 6.33
 x[5,4,1] z 4.96 demand[5,1] 1
 x[5,4,1] demand[5,2] 1 demand[5,3] 1
 x[5,4,1] time[4,1] 4.96
 x[1,4,2] z 6.07 demand[1,2] 1
 x[1,4,2] demand[1,3] 1 time[4,2] 6.07
 x[2,4,2] z 5.05 demand[2,2] 1
 x[2,4,2] demand[2,3] 1 time[4,2] 5.05
 x[3,4,2] z 5.27 demand[3,2] 1
 x[3,4,2] demand[3,3] 1 time[4,2] 5.27
 x[4,4,2] z 6.33 demand[4,2] 1
 x[4,4,2] demand[4,3] 1 time[4,2] 6.33
 x[5,4,2] z 4.96 demand[5,2] 1
 x[5,4,2] demand[5,3] 1 time[4,2] 4.96
 x[1,4,3] z 6.07 demand[1,3] 1
 x[1,4,3] time[4,3] 6.07
 x[2,4,3] z 5.05 demand[2,3] 1
 x[2,4,3] time[4,3] 5.05
 x[3,4,3] z 5.27 demand[3,3] 1
 x[3,4,3] time[4,3] 5.27
 x[4,4,3] z 6.33 demand[4,3] 1
 x[4,4,3] time[4,3] 6.33
 x[5,4,3] z 4.96 demand[5,3] 1
 x[5,4,3] time[4,3] 4.96
RHS
 RHS1 demand[1,1] 25 demand[1,2] 45
 RHS1 demand[1,3] 75 demand[2,1] 44
 RHS1 demand[2,2] 84 demand[2,3] 130
 RHS1 demand[3,1] 6 demand[3,2] 13
 RHS1 demand[3,3] 19 demand[4,1] 22
 RHS1 demand[4,2] 33 demand[4,3] 65
 RHS1 demand[5,1] 28 demand[5,2] 57
 RHS1 demand[5,3] 80 time[1,1] 168
 RHS1 time[1,2] 168 time[1,3] 168
 RHS1 time[2,1] 168 time[2,2] 168
 RHS1 time[2,3] 168 time[3,1] 168
 RHS1 time[3,2] 168 time[3,3] 168
 RHS1 time[4,1] 168 time[4,2] 168
 RHS1 time[4,3] 168
ENDATA
