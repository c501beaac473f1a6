for (var i = 0, j = 10; i < j; i++, j--) { if (i % 2 == 0) print(i, j); else ; }
do { print("once") } while (false) print("after")
while (i-- > 3) print(i)
