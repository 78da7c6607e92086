# Source document 001, example 1 as a general LP problem, for GLPK.
param m, integer;
param n, integer;
param c{1..n};
param b{1..m};
param a{1..m, 1..n};
var x{j in 1..n} >= 0;
maximize z: sum{j in 1..n} c[j] * x[j];
s.t. constraints{i in 1..m}: sum{j in 1..n} a[i, j] * x[j] <= b[i];
data;
param n := 2;
param m := 2;
param a : 1 2 :=
  1 4 5
  2 10 4;
param b := 1 3600 2 3600;
param c := 1 6 2 4;
end;
