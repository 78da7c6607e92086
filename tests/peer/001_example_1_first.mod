# Source document 001, example 1, first form, for GLPK.
var x1 >= 0;
var x2 >= 0;
maximize z: 6 * x1 + 4 * x2;
s.t. constr1: 4 * x1 + 5 * x2 <= 3600;
s.t. constr2: 10 * x1 + 4 * x2 <= 3600;
end;
