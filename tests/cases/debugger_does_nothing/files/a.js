print("a"); debugger
print("b"); if (true) debugger; else print("c");