# Source document 001, example 2, for GLPK.
param t, integer;
param c1, integer;
param k, integer;
param p{1..t}, integer;
param d{1..t}, integer;
var x{j in 1..t} >= 0;
minimize z: sum{j in 1..t} p[j] * x[j] + c1 * sum{j in 1..t} sum{i in 1..j} x[i];
s.t. stock{j in 1..t}: sum{i in 1..j} x[i] <= k + sum{i in 1..j - 1} d[i];
s.t. demand{j in 1..t}: sum{i in 1..j} x[i] >= sum{i in 1..j} d[i];
data;
param t := 3;
param c1 := 1;
param k := 100;
param p := 1 20 2 30 3 35;
param d := 1 60 2 70 3 50;
end;
