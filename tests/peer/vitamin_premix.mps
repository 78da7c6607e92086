* Problem:    vitamin_premix
* Class:      LP
* Rows:       9
* Columns:    8
* Non-zeros:  33
* Format:     Free MPS
*
NAME vitamin_premix
ROWS
 N cost
 E mass
 E vitamin[1]
 E vitamin[2]
 E vitamin[3]
 E vitamin[4]
 E vitamin[5]
 G limestone
 E concentrates
COLUMNS
 x[1] cost 38 mass 1
 x[1] vitamin[1] 1000 concentrates 1
 x[2] cost 12.5 mass 1
 x[2] vitamin[2] 500 concentrates 1
 x[3] cost 44 mass 1
 x[3] vitamin[1] 1000 vitamin[2] 200
 x[3] concentrates 1
 x[4] cost 7.5 mass 1
 x[4] vitamin[3] 500 concentrates 1
 x[5] cost 9.2 mass 1
 x[5] vitamin[4] 437 concentrates 1
 x[6] cost 26 mass 1
 x[6] vitamin[5] 800 concentrates 1
 x[7] cost 0.16 mass 1
 x[7] vitamin[3] 0.02 vitamin[5] 1.9000000E-3
 x[7] limestone -0.5
 x[8] cost 0.05 mass 1
 x[8] limestone 1
RHS
 RHS1 mass 100 vitamin[1] 1000
 RHS1 vitamin[2] 250 vitamin[3] 2000
 RHS1 vitamin[4] 240 vitamin[5] 600
 RHS1 concentrates 5
RANGES
 RNG1 vitamin[1] 200 vitamin[2] 50
 RNG1 vitamin[3] 1000 vitamin[4] 60
 RNG1 vitamin[5] 300 concentrates 3
BOUNDS
 LO BND1 x[1] 0.1
 UP BND1 x[1] 2
 LO BND1 x[2] 0.1
 UP BND1 x[2] 2
 LO BND1 x[3] 0.1
 UP BND1 x[3] 2
 UP BND1 x[4] 8
 UP BND1 x[5] 2
 UP BND1 x[6] 2
 LO BND1 x[7] 20
 UP BND1 x[7] 80
 LO BND1 x[8] 20
 UP BND1 x[8] 60
ENDATA
