
#! late
print("a");