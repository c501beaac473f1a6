var a = 1
var b = 2
a
++b
print(a, b)
if (a) { print("x") } else print("y")
var c = a
+b
print(c)