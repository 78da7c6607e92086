# Source document 001, example 3 with the letter l, for GLPK.
param d{1..5, 1..3}, integer;
param t{1..5, 1..4};
var x{i in 1..5, j in 1..4, k in 1..3} >= 0;
minimize z: sum{j in 1..4, k in 1..3, i in 1..5} t[i, j] * x[i, j, k];
s.t. demand{i in 1..5, l in 1..3}: sum{j in 1..4} sum{k in 1..l} x[i, j, k] >= sum{k in 1..l} d[i, k];
s.t. time{j in 1..4, k in 1..3}: sum{i in 1..5} t[i, j] * x[i, j, k] <= 168;
data;
param d : 1 2 3 :=
  1 25 20 30
  2 44 40 46
  3 6 7 6
  4 22 11 32
  5 28 29 23;
param t : 1 2 3 4 :=
  1 6.28 3.06 100 6.07
  2 4.24 100 4.97 5.05
  3 5.27 100 100 5.27
  4 100 3.31 100 6.33
  5 100 100 3.29 4.96;
end;
