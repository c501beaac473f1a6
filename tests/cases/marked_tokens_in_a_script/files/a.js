x = [a / b, a /= b, a * b];
function f(a) { a = 1; }
y = { get: [a], set: `t` };
