// one
print/* two */("a"/* three
four */);// five
/**/print("/* kept */");/* // */