print("hello from a realm");
print('one \u{1F30D}, one line');
