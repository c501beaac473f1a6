print({ class: 1, async: 2, await: 3, yield: 4, super: 5, with: 6, arguments: 7 }.class);
x.__proto__.of;
