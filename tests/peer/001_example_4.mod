# Source document 001, example 4, for GLPK.
param m, integer;
param n, integer;
param s{1..m}, integer;
param t{1..m}, integer;
var x{i in 1..n}, integer, >= 0, <= 1;
maximize z: sum{i in 1..n} x[i];
s.t. stable{j in 1..m}: x[s[j]] + x[t[j]] <= 1;
data;
param n := 5;
param m := 3;
param s := 1 1 2 3 3 4;
param t := 1 2 2 1 3 5;
end;
