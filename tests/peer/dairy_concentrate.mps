* Problem:    dairy_concentrate
* Class:      MIP
* Rows:       14
* Columns:    13 (3 integer, 0 binary)
* Non-zeros:  131
* Format:     Free MPS
*
NAME dairy_concentrate
ROWS
 N cost
 E mass
 G needs[1]
 G needs[2]
 G needs[3]
 L starchmost
 G starchleast
 L sugarmost
 L fatmost
 G mineral[7]
 G mineral[8]
 G mineral[9]
 G pulps
 L byproducts
COLUMNS
 M0000001 'MARKER' 'INTORG'
 b[1] cost 1.4 mass 25
 b[1] mineral[7] 9500 mineral[9] 100
 b[2] cost 17.5 mass 25
 b[2] mineral[7] 50 mineral[9] 13000
 b[3] cost 2.75 mass 25
 b[3] mineral[7] 75 mineral[9] 25
 M0000002 'MARKER' 'INTEND'
 x[1] cost 0.214 mass 1
 x[1] needs[1] 1015 needs[2] 98
 x[1] needs[3] -26 starchmost 520
 x[1] starchleast 520 sugarmost 28
 x[1] fatmost 21 mineral[7] 0.7
 x[1] mineral[8] 3.4 mineral[9] 1.1
 x[2] cost 0.229 mass 1
 x[2] needs[1] 1068 needs[2] 99
 x[2] needs[3] -31 starchmost 598
 x[2] starchleast 598 sugarmost 25
 x[2] fatmost 20 mineral[7] 0.5
 x[2] mineral[8] 3.2 mineral[9] 1.2
 x[3] cost 0.171 mass 1
 x[3] needs[1] 880 needs[2] 96
 x[3] needs[3] 18 starchmost 205
 x[3] starchleast 205 sugarmost 58
 x[3] fatmost 36 mineral[7] 1.3
 x[3] mineral[8] 9.8 mineral[9] 4.2
 x[3] byproducts 1
 x[4] cost 0.196 mass 1
 x[4] needs[1] 935 needs[2] 98
 x[4] needs[3] 22 starchmost 160
 x[4] starchleast 160 sugarmost 30
 x[4] fatmost 38 mineral[7] 1.6
 x[4] mineral[8] 8.1 mineral[9] 3.9
 x[4] byproducts 1
 x[5] cost 0.205 mass 1
 x[5] needs[1] 905 needs[2] 64
 x[5] needs[3] -40 starchmost 45
 x[5] starchleast 45 sugarmost 22
 x[5] fatmost 15 mineral[7] 6.5
 x[5] mineral[8] 1.9 mineral[9] 1.4
 x[5] byproducts 1
 x[6] cost 0.242 mass 1
 x[6] needs[1] 965 needs[2] 98
 x[6] needs[3] -66 sugarmost 130
 x[6] fatmost 9 mineral[7] 9.1
 x[6] mineral[8] 0.9 mineral[9] 2.1
 x[6] pulps 1
 x[7] cost 0.236 mass 1
 x[7] needs[1] 985 needs[2] 72
 x[7] needs[3] -58 sugarmost 210
 x[7] fatmost 24 mineral[7] 16.2
 x[7] mineral[8] 1.1 mineral[9] 1.7
 x[7] pulps -1
 x[8] cost 0.409 mass 1
 x[8] needs[1] 1010 needs[2] 216
 x[8] needs[3] 180 starchmost 12
 x[8] starchleast 12 sugarmost 92
 x[8] fatmost 21 mineral[7] 3.1
 x[8] mineral[8] 6.6 mineral[9] 3
 x[9] cost 0.281 mass 1
 x[9] needs[1] 805 needs[2] 140
 x[9] needs[3] 132 starchmost 18
 x[9] starchleast 18 sugarmost 88
 x[9] fatmost 27 mineral[7] 7.8
 x[9] mineral[8] 10.9 mineral[9] 5.1
 x[10] cost 0.188 mass 1
 x[10] needs[1] 720 needs[2] 58
 x[10] needs[3] -8 sugarmost 480
 x[10] fatmost 1 mineral[7] 2.2
 x[10] mineral[8] 0.4 mineral[9] 0.6
RHS
 RHS1 mass 3000 needs[1] 2835000
 RHS1 needs[2] 300000 needs[3] 36000
 RHS1 starchmost 780000 starchleast 540000
 RHS1 sugarmost 270000 fatmost 135000
 RHS1 mineral[7] 25500 mineral[8] 13800
 RHS1 mineral[9] 9600 byproducts 1050
BOUNDS
 UP BND1 b[1] 40
 UP BND1 b[2] 40
 LO BND1 b[3] 1
 UP BND1 b[3] 2
 UP BND1 x[1] 1200
 UP BND1 x[2] 1200
 UP BND1 x[3] 1200
 UP BND1 x[4] 1200
 UP BND1 x[5] 1200
 UP BND1 x[6] 1200
 UP BND1 x[7] 1200
 UP BND1 x[8] 1200
 UP BND1 x[9] 1200
 LO BND1 x[10] 90
 UP BND1 x[10] 180
ENDATA
