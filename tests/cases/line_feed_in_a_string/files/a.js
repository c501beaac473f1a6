print("a
b");